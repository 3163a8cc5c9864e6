// The verdict on cleared lines: those of the examples, and each changed in one place.
import assert from "node:assert/strict";
import test from "node:test";
import {changed, cleared, journal} from "./lines.mjs";
import {recheck} from "../page/recheck.mjs";
import {report} from "../page/journal.mjs";

const [BUTTERFLY] = cleared("butterfly");
const [BASKET] = cleared("basket");
const [SPREAD] = cleared("spread");
const [BOUNDED] = cleared("proposals");
const says = (line, word = "audit") => recheck(line, word).says;

/** Each change of a line, and the condition that it fails. */
function refuses(line, changes, word) {
    assert.equal(says(line, word), "Yes");
    for (const [old, made, reason] of changes) {
        assert.equal(says(changed(line, old, made), word), reason, `${old} to ${made}`);
    }
}

test("examples pass, each with its counts", () => {
    const counts = {
        butterfly: {batches: 1, bounded: 0, lines: 10, optimal: 1},
        demo: {batches: 3, bounded: 0, lines: 145},
        joint: {batches: 3, bounded: 0, optimal: 2},
        hundred: {batches: 1, bounded: 1, optimal: 0},
        proposals: {batches: 1, bounded: 1, lines: 13, optimal: 0},
        "serve-sessions": {},
        serve: {},
        sessions: {},
        guarded: {},
        quotes: {},
        book: {},
        accounts: {},
    };
    for (const [name, some] of Object.entries(counts)) {
        const said = report(journal(name), "audit");
        assert.equal(said.verdict, "yes", `${name}: ${JSON.stringify(said)}`);
        assert.deepEqual({...said, ...some}, said, name);
    }
});

test("the word check reads what run writes, and no more", () => {
    const lines = journal("butterfly").toString().split("\n").length - 1;
    assert.deepEqual(report(journal("butterfly"), "check"),
        {batches: 1, lines, optimal: 1, verdict: "yes"});
    assert.deepEqual(report(journal("proposals"), "check"),
        {line: 8, reason: "Shape", verdict: "no"});
    assert.deepEqual(report(new Uint8Array(), "check"),
        {batches: 0, lines: 0, optimal: 0, verdict: "yes"});
});

test("a changed line of one underlying", () => refuses(BUTTERFLY, [
    ['"1","2/7","5/7"]', '"1","3/7","5/7"]', "Cover"],
    ['"weight":"4"}', '"weight":"3"}', "Bound"],
    ['"weight":"3/7"', '"weight":"2/7"', "Measure"],
    ['"weight":"3/7"', '"weight":"-3/7"', "Measure"],
    ['"surplus":"6/7"', '"surplus":"1"', "Cover"],
    ['"liability":"0"', '"liability":"-1/7"', "Cover"],
    ['"fills":["1"', '"fills":["2"', "Fill"],
    ['"fills":["1"', '"fills":["-1"', "Fill"],
    [',"5/7"]', "]", "BatchShape"],
    ['"cover":"line"', '"cover":[{"leaf":[]}]', "BatchShape"],
    ['"cover":"line"', '"cover":"match"', "Shape"],
    ['{"state":["1","0"],"weight":"3/7"}', '{"state":["1","0","0"],"weight":"3/7"}', "BatchShape"],
    ['"form":[-10,1]', '"form":[-10,1,0]', "BatchShape"],
    ['"1","2/7","5/7"]', '"1","4/14","5/7"]', "Number"],
    ['"liability":"0"', '"liability":"-0"', "Number"],
    ['"price":6,', '"price":1000000000001,', "Range"],
    ['"form":[-10,1]', '"form":[-10,0]', "Range"],
    ['"state":["1","0"]', '"state":["0","0"]', "Range"],
    ['"side":"buy"', '"side":"bid"', "Shape"],
    ['"units":3', '"units":3.0', "Shape"],
    ['"units":3', '"units":20001', "Range"],
    ['"version":1', '"version":2', "Shape"],
    ['"batch":1,', '"batch":1,"more":1,', "Shape"],
    ['"batch":1,', '"batch": 1,', "Spelling"],
    ['"batch":1,', '"batch":2,"batch":1,', "Spelling"],
    ["{\"batch\"", "\"batch\"", "NotJson"],
]));

test("a surplus and its liability that are wrong together", () => {
    const owed = changed(BUTTERFLY, '"liability":"0"', '"liability":"-1/7"');
    assert.equal(says(changed(owed, '"surplus":"6/7"', '"surplus":"1"')), "Cover");
});

test("a mark without a certificate is covered by each bundle alone", () => {
    const bare = BUTTERFLY.replace(/"certificate":.*?\}\]\},/, "").replace('"optimal"', '"budget"');
    assert.equal(says(bare), "Cover");
    const unfilled = changed(bare, '"1","2/7","5/7"', '"0","0","0"');
    const none = changed(unfilled, '"surplus":"6/7"', '"surplus":"0"');
    assert.equal(says(none), "Yes");
    assert.equal(says(changed(none, '"liability":"0"', '"liability":"1"')), "Cover");
});

test("a changed line of bundles", () => {
    refuses(SPREAD, [
        ['"count":-1', '"count":1', "Cover"],
        ['"count":-1', '"count":0', "Range"],
        ['"count":-1', '"count":-1001', "Range"],
        ['"version":2', '"version":3', "Shape"],
    ]);
    const [left, rest] = SPREAD.split('{"count":1,"form":[-10,1]},{"count":-1,"form":[-12,1]}');
    assert.equal(says(`${left}{"count":1,"form":[-10,1]}${rest}`), "Spelling");
});

test("a changed tree of signs", () => refuses(BASKET, [
    ['[{"split":1}', '[{"split":2}', "Cover"],
    ['[{"split":1}', '[{"split":8}', "Cover"],
    ['[{"split":1}', '[{"split":1},{"split":1}', "Cover"],
    ['[{"split":1}', '[{"split":4},{"split":1}', "Cover"],
    ['[{"split":1}', '[{"split":1025}', "Range"],
    [',{"leaf":[]}]', "]", "Cover"],
    [',{"leaf":[]}]', ',{"leaf":[]},{"leaf":[]}]', "Cover"],
    ['{"leaf":[]}', '{"leaf":[{"at":1,"by":"0"}]}', "Yes"],
    ['{"leaf":[]}', '{"leaf":[{"at":1,"by":"1"}]}', "Cover"],
    ['{"leaf":[]}', '{"leaf":[{"at":1,"by":"-1"}]}', "Cover"],
    ['{"leaf":[]}', '{"leaf":[{"at":4,"by":"0"}]}', "Cover"],
    ['{"leaf":[]}', '{"leaf":[{"at":8,"by":"0"}]}', "Cover"],
    ['{"at":2,"by":"3"}', '{"at":2,"by":"2"}', "Cover"],
    ['{"at":2,"by":"3"}', '{"at":2,"by":"4"}', "Cover"],
    ['{"at":2,"by":"3"},{"at":3,"by":"3"}', '{"at":3,"by":"3"},{"at":2,"by":"3"}', "Cover"],
    ['{"at":2,"by":"3"},{"at":3,"by":"3"}', '{"at":2,"by":"3"},{"at":2,"by":"3"}', "Cover"],
    ['"fills":["3","3","3"', '"fills":["3","3","2"', "Cover"],
]));

test("a changed line with a bound", () => {
    refuses(BOUNDED, [
        ['"bound":"6/7"', '"bound":"1"', "Bound"],
        ['"surplus":"3/7"', '"surplus":"4/7"', "Cover"],
        ['"fills":["1/2"', '"fills":["8/7"', "Fill"],
        ['"weight":"3/7"', '"weight":"2/7"', "Measure"],
        ['"run":"budget"', '"run":"optimal"', "Shape"],
        ['"cover":"line"', '"cover":"match"', "Cover"],
    ]);
    const unfilled = changed(BOUNDED, '"1/2","1/7","5/14"', '"0","0","0"');
    const none = changed(unfilled, '"surplus":"3/7"', '"surplus":"0"');
    assert.equal(says(changed(none, '"cover":"line"', '"cover":"match"')), "Yes");
    assert.equal(says(BOUNDED, "check"), "Shape");
});

test("what does not fit is told apart, and by which sum", () => {
    const power = 2n ** 126n;
    const first = changed(BUTTERFLY, '"weight":"3/7"', `"weight":"1/${power}"`);
    const wide = changed(first, '"weight":"4/7"', `"weight":"1/${power - 1n}"`);
    const {says: reason, sentence, steps} = recheck(wide);
    assert.equal(reason, "Wide");
    assert.match(sentence, /2\^127 − 1.*Without a limit, Measure fails/);
    assert.equal(steps[steps.length - 1].holds, false);
    const at = price => changed(BUTTERFLY, '"state":["1","12"]', `"state":["1","${price}"]`);
    assert.equal(says(at(2n ** 127n - 1n)), "Wide");
    assert.equal(says(at(2n ** 127n)), "Range");
});

test("the steps stand in order, and the last says what fails", () => {
    const {steps, sentence} = recheck(BUTTERFLY);
    assert.deepEqual(steps.map(step => step.condition), ["NotJson", "Shape", "Number", "Range",
        "Spelling", "BatchShape", "Fill", "Cover", "Cover", "Measure", "Bound"]);
    assert.match(sentence, /leave the house 6\/7, and no fills of these orders leave more\.$/);
    const wrong = recheck(changed(BUTTERFLY, '"weight":"4"}', '"weight":"3"}'));
    assert.equal(wrong.sentence, "No fills leave more than 13/7, and the line says 6/7.");
    assert.equal(wrong.batch.surplus.toString(), "6/7");
    assert.equal(says('{"account":1,"line":1,"reply":"opened"}'), "Shape");
});

test("answers to messages tell the line within", () => {
    const answer = `{"number":5,"of":${BOUNDED},"session":1}`;
    assert.equal(says(answer), "Yes");
    assert.equal(says(answer.replace(":5,", ": 5,")), "Spelling");
    assert.equal(says(answer.replace(":5,", ":0,")), "Range");
    assert.equal(says(answer.replace(":5,", ":5.0,")), "Shape");
    assert.equal(says(answer.replace('"of":', '"of":{},"of":')), "Spelling");
    assert.equal(says(`{"number":6,"of":${answer},"session":1}`), "Shape");
    assert.equal(says(answer.replace('"bound":"6/7"', '"bound":"1"')), "Bound");
});

test("a cover by cells", () => {
    const order = (number, side, price, form) =>
        `{"account":1,"legs":[{"count":1,"form":[${form}]}],"order":${number},"price":${price},`
        + `"quantity":1,"side":"${side}"}`;
    const orders = [order(1, "buy", 3, "-10,1,1"), order(2, "sell", 1, "-10,1,0"),
        order(3, "sell", 1, "0,0,1")];
    const measure = '[{"state":["1","0","0"],"weight":"1"}]';
    const line = '{"batch":1,"bound":"3","certificate":{"cover":{"cells":[{"split":1},'
        + `{"leaf":[2,"1",3,"1"]},{"leaf":[]}]},"measure":${measure}},"fills":["1","1","1"],`
        + `"liability":"0","line":1,"mark":"bounded","market":1,"orders":[${orders}],`
        + '"reply":"cleared","run":"budget","surplus":"1","underlyings":2,"units":1,"version":3}';
    const bound = of => `{"bound":${of},"minus":[],"plus":[]}`;
    refuses(line, [
        ['{"leaf":[2,"1",3,"1"]}', '{"full":[2,3],"leaf":[]}', "Yes"],
        ['{"leaf":[2,"1",3,"1"]}', `${bound(2)},{"full":[2,3],"leaf":[]}`, "Yes"],
        ['{"leaf":[2,"1",3,"1"]}', '{"leaf":[2,"2",3,"1"]}', "Cover"],
        ['{"leaf":[2,"1",3,"1"]}', '{"full":[2],"leaf":[2,"1",3,"1"]}', "Cover"],
        ['{"leaf":[2,"1",3,"1"]}', `${bound(1)},{"full":[2,3],"leaf":[]}`, "Cover"],
        ['{"split":1}', '{"split":2}', "Cover"],
        ['{"split":1}', '{"split":4}', "BatchShape"],
        ['{"split":1}', '{"split":1},{"split":2}', "BatchShape"],
        [',{"leaf":[]}]', "]", "BatchShape"],
        ['{"leaf":[]}]', '{"leaf":[]},{"leaf":[]}]', "BatchShape"],
        ['{"leaf":[2,"1",3,"1"]}', '{"leaf":[3,"1",2,"1"]}', "Range"],
        ['{"leaf":[2,"1",3,"1"]}', '{"full":[],"leaf":[]}', "Range"],
        ['{"leaf":[2,"1",3,"1"]}', '{"leaf":[2,"1",3]}', "Shape"],
    ]);
});
