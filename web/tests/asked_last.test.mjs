// What is asked while a field is dragged: it is asked again where it was too much.
import {AskedLast} from "../page/asked_last.mjs";
import assert from "node:assert";
import {test} from "node:test";

/* global global */
let answers = [];
global.fetch = async () => {
    const [status, told] = answers.shift();
    return {status, json: async () => told};
};
const refused = (status, reason) => [status, {reason, reply: "gateway", told: reason}];

test("what was too much is asked again, and what is refused for good is not", async () => {
    answers = [refused(429, "Often"), refused(503, "Unanswered"),
        [200, {reply: "priced", ask: "7", bid: "never"}], refused(400, "Form")];
    const told = [];
    const asked = new AskedLast(([reply]) => told.push(reply.ask || reply.told));
    await asked.want(["price/1/1/call,10,1"], 1);
    assert.deepStrictEqual(told, ["Often", "Unanswered", "7"]);
    await asked.want(["price/1/1/call,x,1"], 1);
    assert.deepStrictEqual(told.slice(3), ["Form"]);
});

test("what was told last is told again, and not asked", async () => {
    answers = [[200, {reply: "priced", ask: "7"}], [200, {reply: "priced", ask: "8"}]];
    const told = [];
    const asked = new AskedLast(([reply]) => told.push(reply.ask));
    await asked.want(["price/1/1/call,10,1"], 1);
    await asked.want(["price/1/1/call,10,1"], 1);
    assert.deepStrictEqual(told, ["7", "7"]);
    // A field was another one for a moment.
    const other = asked.want(["price/1/1/call,11,1"], 1);
    asked.want(["price/1/1/call,10,1"], 1);
    await other;
    assert.deepStrictEqual([told, answers.length], [["7", "7", "7"], 1]);
});
