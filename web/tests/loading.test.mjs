// What is asked anew while it is asked, and after a fault.
import {Loading} from "../page/loading.mjs";
import assert from "node:assert";
import {test} from "node:test";

const turn = () => new Promise(go => setTimeout(go, 0));

test("what is wanted meanwhile is asked one time more", async () => {
    const [answers, ends] = [[], []];
    // The first one is answered when that is said, and each other one at once.
    const load = () => new Promise(go => answers.push(go) > 1 && go());
    const loading = new Loading(load, end => ends.push(end));
    const whole = loading.want();
    loading.want();
    loading.want();
    await turn();
    assert.strictEqual(answers.length, 1);
    answers[0]();
    await whole;
    assert.deepStrictEqual([answers.length, ends], [2, [null, null]]);
});

test("after a fault it is asked again, and another one does not wait for it", async () => {
    const [told, ends] = [[], []];
    const slow = new Loading(async () => {
        told.push("slow");
        if (told.length < 2) {
            throw new Error("no follower answers");
        }
    }, end => ends.push(end === null ? "" : end.message));
    const other = new Loading(async () => {
        told.push("other");
    }, () => {});
    await Promise.all([slow.want(), other.want()]);
    assert.deepStrictEqual(told, ["slow", "other", "slow"]);
    assert.deepStrictEqual(ends, ["no follower answers", ""]);
});
