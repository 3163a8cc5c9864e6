// Reading lines: JSON without a loss of digits, the five tests, fractions with a limit.
import assert from "node:assert/strict";
import test from "node:test";
import {LIMIT, Sums, Wide, fractionOf} from "../page/fractions.mjs";
import {NotJson, readJson, spelled} from "../page/json_text.mjs";
import {linesOf, report} from "../page/journal.mjs";
import {Fault} from "../page/kinds.mjs";
import {replyOrFault} from "../page/recheck.mjs";

const reason = (line, word = "check") => {
    const read = replyOrFault(line, word);
    return read instanceof Fault ? read.reason : "Yes";
};

test("JSON keeps each digit, and the last of two keys", () => {
    const digits = "1".repeat(400);
    const value = readJson('{"b":0.1e-3,"a":[1,-0,"\\u00e9\\n"]}');
    assert.equal(spelled(value), '{"a":[1,-0,"é\\n"],"b":0.1e-3}');
    assert.equal(spelled(readJson('{"a":1,"a":2}')), '{"a":2}');
    assert.equal(spelled(readJson(` \t\r\n[${"9".repeat(300)}]`)), `[${"9".repeat(300)}]`);
    for (const text of ["", "{", "[1,]", '{"a":1,}', "01", "1.", ".5", "+1", "1e", "nul", "[1] 2",
        '"\t"', '"\\x"', '"\\ud800"', '"\\ud800\\u0041"', '"\ud800"', "'a'", digits, "1e309",
        "-1e400", "\u00a01"]) {
        assert.throws(() => readJson(text), NotJson, text);
    }
    for (const text of ["1e308", "0e999999999", "1e-999999999", "17976931348623157e292",
        '"\\ud83d\\ude00"', '"\u007f"']) {
        readJson(text);
    }
    assert.equal(readJson(JSON.stringify("a".repeat(2e7))).length, 2e7);
    readJson("[".repeat(127) + "]".repeat(127));
    assert.throws(() => readJson("[".repeat(128) + "]".repeat(128)), NotJson);
});

test("single lines and the test that they fail", () => {
    for (const [line, expected] of [
        ['{"account":1,"line":1,"reply":"opened"}', "Yes"],
        ['{"account":1.0,"line":1,"reply":"opened"}', "Shape"],
        ['{"account":-0,"line":1,"reply":"opened"}', "Shape"],
        ['{"account":18446744073709551616,"line":1,"reply":"opened"}', "Shape"],
        ['{"account":18446744073709551615,"line":1,"reply":"opened"}', "Range"],
        ['{"account":0,"line":1,"reply":"opened"}', "Range"],
        ['{"account":1,"line":16777217,"reply":"opened"}', "Range"],
        ['{"account":1,"line":1,"reply":"closed"}', "Shape"],
        ['{"account":1,"line":1,"reply":"constructor"}', "Shape"],
        ['{"account":1,"balance":"-0","line":1,"reply":"deposited"}', "Number"],
        ['{"account":1,"balance":"007","line":1,"reply":"deposited"}', "Number"],
        ['{"line":1,"account":1,"reply":"opened"}', "Spelling"],
        ['{"account":1,"line":1,"reply":"opened"} ', "Spelling"],
        ['{"account":1,"line":1,"reply":"opene\\u0064"}', "Spelling"],
        ['{"line":1,"number":8,"reason":"Range","reply":"refused"}', "Shape"],
        ['{"field":2,"line":1,"number":8,"reason":"Range","reply":"refused"}', "Yes"],
        ['{"field":52,"line":1,"number":8,"reason":"Range","reply":"refused"}', "Range"],
        ['{"line":1,"number":1,"reason":"Range","reply":"refused"}', "Shape"],
        ['{"line":1,"number":14,"reason":"Margin","reply":"refused"}', "Shape"],
        ["[".repeat(200), "NotJson"],
        ["", "NotJson"],
    ]) {
        assert.equal(reason(line), expected, line);
    }
});

test("lines that only serve writes", () => {
    const proposed = (surplus, best, least, bound) =>
        `{"best_surplus":"${best}","bound":"${bound}","least_bound":"${least}","line":9,`
        + `"market":1,"reply":"proposed","surplus":"${surplus}"}`;
    for (const [line, expected] of [
        [proposed("4", "5", "6", "6"), "Yes"],
        [proposed("4", "5", "6", "5"), "Range"],
        [proposed("-1", "5", "6", "6"), "Range"],
        [proposed("4", "7", "6", "6"), "Range"],
        ['{"ask":"never","bid":"5","line":5,"market":1,"reply":"quoted"}', "Yes"],
        ['{"ask":"always","bid":"5","line":5,"market":1,"reply":"quoted"}', "Number"],
        ['{"ask":"never","bid":"1000000000001","line":5,"market":1,"reply":"quoted"}', "Range"],
        ['{"account":2,"line":10,"margin":"wide","market":1,"reply":"margin"}', "Yes"],
        ['{"account":2,"line":10,"margin":"10","market":1,"reply":"margin"}', "Shape"],
        ['{"line":11,"need":"sum","number":14,"reason":"Margin","reply":"refused"}', "Yes"],
        ['{"line":11,"need":"-1","number":14,"reason":"Margin","reply":"refused"}', "Range"],
        ['{"failed":"Bound","line":1,"number":21,"reason":"Unproved","reply":"refused"}', "Shape"],
        ['{"expected":2,"line":4,"number":17,"reason":"Ahead","reply":"gate","session":7}', "Yes"],
        ['{"line":8,"number":15,"reason":"Malformed","reply":"gate"}', "Yes"],
        ['{"line":8,"number":16,"reason":"Old","reply":"gate"}', "Shape"],
    ]) {
        assert.equal(reason(line, "audit"), expected, line);
        assert.equal(reason(line, "check"), "Shape", line);
    }
});

test("bytes are split at line feeds, and what is no UTF-8 is no line", () => {
    const bytes = text => new TextEncoder().encode(text);
    assert.deepEqual(linesOf(bytes("a\n\nb")), ["a", "", "b"]);
    assert.deepEqual(linesOf(bytes("a\n")), ["a"]);
    assert.deepEqual(linesOf(new Uint8Array([0xff, 10])), [null]);
    assert.deepEqual(linesOf(bytes("\ufeffa")), ["\ufeffa"]);
    assert.deepEqual(report(new Uint8Array([0xff]), "audit"),
        {line: 1, reason: "NotJson", verdict: "no"});
});

test("sums and products fit where no number on the way is above the limit", () => {
    const limited = new Sums(LIMIT);
    const add = (a, b, sums = limited) => `${sums.add(fractionOf(a), fractionOf(b))}`;
    const times = (a, b, sums = limited) => `${sums.times(fractionOf(a), fractionOf(b))}`;
    const [big, half] = [`${2n ** 126n}`, `1/${2n ** 100n}`];
    assert.equal(add("1/2", "-1/3"), "1/6");
    assert.equal(add("-1/6", "1/6"), "0");
    assert.equal(add(half, half), `1/${2n ** 99n}`);
    assert.equal(times(big, `1/${big}`), "1");
    assert.equal(times("-2/3", "3/4"), "-1/2");
    assert.equal(add(`${LIMIT}`, "0"), `${LIMIT}`);
    assert.throws(() => add(`1/${big}`, `1/${2n ** 126n - 1n}`), Wide);
    assert.throws(() => add(`${LIMIT}`, "1"), Wide);
    assert.throws(() => times(`${2n ** 64n}`, `${2n ** 64n}`), Wide);
    assert.equal(times(`${2n ** 64n}`, `${2n ** 64n}`, new Sums(null)), `${2n ** 128n}`);
});
