// What is asked anew after events.
import assert from "node:assert";
import {asksFor} from "../page/trading_state.mjs";
import {test} from "node:test";

const answer = reply => ({event: "answer", at: 1, line: "", reply: {reply}});

test("each answer that is shown is asked for, and what all may see after events alone", () => {
    for (const reply of ["placed", "refused", "cleared", "listed", "proposed"]) {
        assert.deepStrictEqual(asksFor([answer(reply)]), {isPublic: false, isOwn: true}, reply);
    }
    assert.deepStrictEqual(asksFor([answer("balance")]), {isPublic: false, isOwn: false});
    assert.deepStrictEqual(asksFor([]), {isPublic: false, isOwn: false});
    assert.deepStrictEqual(asksFor([{event: "placed"}]), {isPublic: true, isOwn: false});
    assert.deepStrictEqual(asksFor([{event: "gap"}]), {isPublic: true, isOwn: true});
});
