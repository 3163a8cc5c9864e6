// What somebody has at stake: positions that are held, and orders as if they were filled whole.
import {Sums, ZERO, fractionOf, negative, part, whole} from "./fractions.mjs";
import {payoff, signed} from "./batch.mjs";
import {bendsOn} from "./batch_tables.mjs";
import {near} from "./seen.mjs";
import {tableOf} from "./steps.mjs";
import {underlying} from "./words.mjs";

/** @typedef {import("./batch.mjs").Form} Form */
/** @typedef {import("./batch.mjs").Leg} Leg */
/** @typedef {import("./batch.mjs").Order} Order */
/** @typedef {import("./batch.mjs").State} State */
/** @typedef {import("./fractions.mjs").Fraction} Fraction */
/** @typedef {import("./gateway.mjs").Told} Told */
/** @typedef {{told: string, kind: string, stakes: Order[]}} Heap
 * stakes that are summed to one curve; the price of an order is what is paid for it */
/** @typedef {{paid: Fraction, options: {form: Form, count: Fraction}[]}} Held
 * what is paid in all, and how many are held of each option, below 0 where they are owed */

const FREE = new Sums(null);

/** @param {Told[]} legs
 * @returns {Leg[]} */
export const legsOf = legs => legs.map(({count, form}) =>
    ({count: BigInt(count), form: form.map(BigInt)}));

/** An order as the gateway tells it.
 * @param {Told} order
 * @returns {Order} */
export const orderOf = order => ({
    account: BigInt(order.account || 0),
    number: BigInt(order.order || 0),
    isBuy: order.side === "buy",
    price: whole(BigInt(order.price)),
    quantity: whole(BigInt(order.quantity)),
    legs: legsOf(order.legs),
});

/** A position, which costs nothing more.
 * @param {Told} position
 * @returns {Order} */
export const positionOf = position => ({
    account: 0n,
    number: BigInt(position.order),
    isBuy: position.side === "buy",
    price: ZERO,
    quantity: fractionOf(position.fill),
    legs: legsOf(position.legs),
});

/** The options that stakes come to; of many stakes these are far fewer.
 * @param {Order[]} stakes
 * @returns {Held} */
export function heldOf(stakes) {
    /** @type {Held["options"]} */
    const options = [];
    /** @type {Map<string, number>} */
    const places = new Map();
    let paid = ZERO;
    for (const stake of stakes) {
        paid = FREE.add(paid, signed(stake, FREE.times(stake.quantity, stake.price)));
        for (const {count, form} of stake.legs) {
            const known = places.get(`${form}`);
            const place = known === undefined ? options.push({form, count: ZERO}) - 1 : known;
            places.set(`${form}`, place);
            const more = signed(stake, FREE.times(stake.quantity, whole(count)));
            options[place].count = FREE.add(options[place].count, more);
        }
    }
    return {paid, options: options.filter(({count}) => count.over !== 0n)};
}

/** What is held is worth at a settlement, less what is paid for it.
 * @param {Held} held @param {State} state */
export function worth({paid, options}, state) {
    let sum = ZERO;
    for (const {form, count} of options) {
        sum = FREE.add(sum, FREE.times(count, payoff(FREE, form, state)));
    }
    return FREE.add(FREE.times(sum, part(state[0])), negative(paid));
}

/** A price up to which a picture goes: past all bends, the other prices as they are.
 * @param {Order[]} stakes @param {number} axis @param {number[]} prices */
export function reach(stakes, axis, prices) {
    const forms = stakes.flatMap(stake => stake.legs.map(leg => leg.form.map(Number)));
    const bends = forms.map(([strike, ...weights]) => {
        const others = weights.reduce((sum, weight, at) =>
            at === axis ? sum : sum + weight * prices[at], strike);
        return -others / weights[axis];
    });
    const known = bends.filter(price => price > 0 && price <= 1e9);
    return Math.ceil(Math.max(8, ...known) * 2);
}

/** @param {Heap[]} heaps @param {number} axis @param {number[]} prices @param {number} greatest
 * @returns {State[]} the settlements at which one of the curves bends */
function states(heaps, axis, prices, greatest) {
    const orders = heaps.flatMap(heap => heap.stakes);
    const least = prices.map((price, at) => at === axis ? 0 : price);
    return bendsOn({orders}, axis, least, greatest)
        .filter(state => state[axis + 1] <= BigInt(greatest) * state[0]);
}

/** The curves of heaps along one price, as points to be drawn.
 * @param {Heap[]} heaps @param {number} axis @param {number[]} prices @param {number} greatest */
export function curvesOf(heaps, axis, prices, greatest) {
    const bends = states(heaps, axis, prices, greatest);
    return heaps.map(({told, kind, stakes}) => {
        const held = heldOf(stakes);
        return {told, kind, points: bends.map(state => /** @type {[number, number]} */
            ([Number(state[axis + 1]) / Number(state[0]), near(worth(held, state))]))};
    });
}

/** The same as an exact table.
 * @param {string} caption @param {Heap[]} heaps @param {number} axis @param {number[]} prices
 * @param {number} greatest */
export function worthTable(caption, heaps, axis, prices, greatest) {
    const all = heaps.map(heap => heldOf(heap.stakes));
    const rows = states(heaps, axis, prices, greatest).map(state => {
        const price = FREE.times(whole(state[axis + 1]), part(state[0]));
        return [`${price}`, ...all.map(held => `${worth(held, state)}`)];
    });
    const name = underlying(axis, prices.length);
    return tableOf(caption, [`price of ${name}`, ...heaps.map(heap => heap.told)], rows);
}
