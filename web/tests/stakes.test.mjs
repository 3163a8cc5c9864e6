// What stakes are worth, beside a sum over each of them.
import {Sums, ZERO, part, whole} from "../page/fractions.mjs";
import {curvesOf, heldOf, orderOf, positionOf, reach, worth} from "../page/stakes.mjs";
import {pays, signed} from "../page/batch.mjs";
import assert from "node:assert";
import {drawnWorth} from "../page/worth_map.mjs";
import {near} from "../page/seen.mjs";
import {test} from "node:test";

const FREE = new Sums(null);
const FILLS = ["2", "2/7", "5/7", "1/3", "13/11"];
// Many stakes in few options, with two legs each.
const stakes = Array.from({length: 300}, (_, at) => {
    const legs = [{count: 1 + at % 3, form: [-10 - at % 20, 1, at % 2]},
        {count: -1, form: [12 + at % 5, -1, 0]}];
    const told = {order: at + 1, side: at % 4 < 2 ? "buy" : "sell", legs};
    return at % 3 === 0 ? orderOf({...told, price: at % 7, quantity: 1 + at % 6})
        : positionOf({...told, fill: FILLS[at % 5]});
});

/** Each stake by itself. */
function slowly(state) {
    return stakes.reduce((sum, stake) => {
        const value = FREE.times(pays(FREE, stake, state), part(state[0]));
        const gained = FREE.times(stake.quantity, FREE.less(value, stake.price));
        return FREE.add(sum, signed(stake, gained));
    }, ZERO);
}

test("stakes are worth what each of them is", () => {
    const held = heldOf(stakes);
    const drawn = drawnWorth({told: "", kind: "", stakes});
    assert.ok(held.options.length < 60);
    for (const state of [[1n, 0n, 0n], [1n, 11n, 3n], [2n, 25n, 7n], [1n, 70n, 30n]]) {
        assert.deepStrictEqual(worth(held, state), slowly(state));
        const [t, right, up] = state.map(Number);
        assert.ok(Math.abs(drawn(right / t, up / t) - near(slowly(state))) < 1e-6);
    }
    assert.deepStrictEqual(worth(heldOf([]), [1n, 5n]), ZERO);
});

test("a curve of many positions has numbers", () => {
    // Their sums have parts that no double holds.
    const many = Array.from({length: 30}, (_, at) => positionOf({order: 1, side: "buy",
        fill: `1/${10n ** 12n + BigInt(at)}`, legs: [{count: 1, form: [-10 - at, 1]}]}));
    const heap = {told: "", kind: "", stakes: many};
    const [{points}] = curvesOf([heap], 0, [10], reach(many, 0, [10]));
    assert.ok(points.every(([, value]) => Number.isFinite(value)));
    assert.strictEqual(near(whole(3n)), 3);
});
