// What an account needs, beside the worked numbers of the exchange.
import {needOn} from "../page/needs.mjs";
import {fractionOf, whole} from "../page/fractions.mjs";
import assert from "node:assert";
import {test} from "node:test";

const leg = (count, kind, strike) => ({
    count: BigInt(count),
    form: kind === "call" ? [BigInt(-strike), 1n] : [BigInt(strike), -1n],
});
const order = (side, price, quantity, ...legs) => ({account: 2n, number: 1n,
    isBuy: side === "buy", price: whole(BigInt(price)), quantity: fractionOf(quantity), legs});

test("a put that is sold needs its strike less its price, and two ticks", () => {
    const put = order("sell", 7, "1", leg(1, "put", 10));
    assert.strictEqual(needOn([], [put]), 5n);
    assert.strictEqual(needOn([order("sell", 0, "1", leg(1, "put", 10))], []), 11n);
});

test("a call that is sold alone needs what it pays at the greatest price", () => {
    assert.strictEqual(needOn([], [order("sell", 5, "1", leg(1, "call", 10))]), 999999987n);
    const spread = order("sell", 4, "1", leg(1, "call", 10), leg(-1, "call", 20));
    assert.strictEqual(needOn([], [spread]), 8n);
});

test("what is held covers what is sold", () => {
    const held = order("buy", 0, "1", leg(1, "call", 10));
    assert.strictEqual(needOn([held], [order("sell", 6, "1", leg(1, "call", 10))]), 3n);
});

test("a buy needs its premium, and what its bundle may owe", () => {
    assert.strictEqual(needOn([], [order("buy", 6, "2", leg(1, "call", 10))]), 14n);
    const written = order("buy", 1, "3", leg(1, "put", 5), leg(-1, "put", 10));
    assert.strictEqual(needOn([], [written]), 3n + 15n + 2n);
    assert.strictEqual(needOn([], []), 0n);
});

test("a fraction is rounded up", () => {
    assert.strictEqual(needOn([order("sell", 0, "1/3", leg(1, "put", 10))], []), 5n);
});
