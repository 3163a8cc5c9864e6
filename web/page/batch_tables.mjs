// What the page tells of a batch in words and tables: exact, as fractions.
import {Sums, commonDivisor, isBelowZero, negative, part, whole} from "./fractions.mjs";
import {bundleWords, sideWord, stateText, stateWords, underlying} from "./words.mjs";
import {net, signed} from "./batch.mjs";
import {kept, near} from "./seen.mjs";
import {rounded, svg} from "./svg.mjs";
import {tableOf} from "./steps.mjs";

/** @typedef {import("./batch.mjs").Batch} Batch */
/** @typedef {import("./batch.mjs").Order} Order */
/** @typedef {import("./batch.mjs").State} State */
/** @typedef {import("./fractions.mjs").Fraction} Fraction */

const FREE = new Sums(null);

const MARKS = new Map([
    ["optimal", "optimal: said to be the greatest"],
    ["bounded", "bounded: said to be within its bound"],
    ["wide", "wide: a number of the run did not fit, so each bundle is matched by itself"],
    ["budget", "budget: the run stopped at its budget, so each bundle is matched by itself"],
]);

const LONG = 12;

/** A number in short: itself, or what it is near.
 * @param {Fraction} value */
export const brief = value => `${value}`.length > LONG ? `≈ ${rounded(near(value))}` : `${value}`;

/** A number, and what it is near; that first where the number is long.
 * @param {Fraction} value */
function both(value) {
    if (value.under === 1n) {
        return `${value}`;
    }
    const about = `≈ ${rounded(near(value))}`;
    return `${value}`.length > LONG ? `${about} (${value})` : `${value} (${about})`;
}

/** What a line says, as pairs of name and value.
 * @param {Batch} batch
 * @returns {[name: string, value: string][]} */
export function factsOf(batch) {
    const filled = batch.fills.filter(fill => fill.over !== 0n).length;
    /** @type {[string, string][]} */
    const bound = batch.bound === null ? [] : [["bound", both(batch.bound)],
        ["gap", both(FREE.less(batch.bound, batch.surplus))]];
    return [
        ["surplus", both(batch.surplus)],
        ...bound,
        ["mark", MARKS.get(batch.mark) || batch.mark],
        ["batch", `${batch.batch}`],
        ["market", `${batch.market}, underlyings: ${batch.underlyings}`],
        ["orders", `${batch.orders.length}, of which ${filled} are filled`],
        ["liability", both(batch.liability)],
        ["units", `${batch.units}`],
    ];
}

/** A bar that shows which part of its quantity an order has.
 * @param {Order} order @param {Fraction} fill */
function fillBar(order, fill) {
    const width = Math.max(0, Math.min(60, near(fill) / near(order.quantity) * 60));
    const whole = {width: 60, height: 12, viewBox: "0 0 60 12"};
    return svg("svg", {...whole, class: "bar", "aria-hidden": "true"},
        svg("rect", {width: 60, height: 12, class: "empty"}),
        svg("rect", {width, height: 12, class: sideWord(order)}));
}

/** @param {Batch} batch */
export function fillTable({orders, fills}) {
    const rows = orders.map((order, at) => [`${order.number}`, `${order.account}`, sideWord(order),
        bundleWords(order), `${order.price}`, `${order.quantity}`, `${fills[at]}`,
        fillBar(order, fills[at]),
        `${signed(order, FREE.times(fills[at], order.price))}`]);
    return {
        caption: "Each order, what is filled of it, and what it pays for that (with a minus, gets)",
        head: ["order", "account", "side", "bundle", "limit", "quantity", "fill", "part", "pays"],
        rows,
    };
}

/** The settlement at whole prices.
 * @param {number[]} prices
 * @returns {State} */
export const settlement = prices => [1n, ...prices.map(price => BigInt(Math.round(price)))];

/** What is kept at a settlement, for each of its t.
 * @param {Batch} batch @param {State} state */
const keptEach = (batch, state) => FREE.times(kept(batch, state), part(state[0]));

/** @param {Batch} batch @param {State} state */
export function keptWords(batch, state) {
    const value = keptEach(batch, state);
    const more = FREE.less(value, batch.surplus);
    const beside = isBelowZero(more)
        ? `${both(negative(more))} less than the surplus` : `${both(more)} more than the surplus`;
    const told = more.over === 0n ? "just the surplus" : beside;
    return `At ${stateWords(state)} the house keeps ${both(value)}, ${told}.`;
}

/** The settlements along one price at which an order bends, the other prices as they are.
 * @param {{orders: Order[]}} batch @param {number} axis @param {number[]} prices
 * @param {number} greatest
 * @returns {State[]} */
export function bendsOn({orders}, axis, prices, greatest) {
    const base = settlement(prices);
    const forms = orders.flatMap(order => order.legs.map(leg => leg.form));
    const ends = [0n, BigInt(Math.round(greatest))].map(price => [1n, price]);
    const bends = forms.map(form => {
        const others = form.reduce((sum, entry, at) =>
            at === axis + 1 ? sum : sum + entry * base[at], 0n);
        const [t, s] = form[axis + 1] < 0n ? [-form[axis + 1], others] : [form[axis + 1], -others];
        const shared = commonDivisor(t, s);
        return t > 0n && s > 0n ? [t / shared, s / shared] : [1n, 0n];
    });
    const told = new Map([...ends, ...bends].map(bend => [`${bend}`, bend]));
    const rising = [...told.values()].sort((a, b) => Number(a[1] * b[0] - b[1] * a[0]));
    return rising.map(([t, s]) => base.map((entry, at) => at === axis + 1 ? s : entry * t));
}

/** @param {Batch} batch @param {number} axis @param {number[]} prices @param {number} greatest */
export function curveTable(batch, axis, prices, greatest) {
    const name = underlying(axis, batch.underlyings);
    const rows = bendsOn(batch, axis, prices, greatest).map(state => {
        const value = keptEach(batch, state);
        const owed = FREE.times(net(FREE, batch, state), part(state[0]));
        const price = FREE.times(whole(state[axis + 1]), part(state[0]));
        return [price, owed, value, FREE.less(value, batch.surplus)].map(String);
    });
    return tableOf(`What the house keeps over the price of ${name}`,
        [`price of ${name}`, "net", "kept", "kept less surplus"], rows);
}

/** What is kept over two prices, in a few steps of each.
 * @param {Batch} batch @param {[number, number]} reach */
export function mapTable(batch, reach) {
    const steps = [0, 1, 2, 3, 4];
    const [first, second] = reach.map(greatest =>
        steps.map(step => Math.round(greatest * step / 4)));
    const rows = second.slice().reverse().map(up =>
        [`S2 = ${up}`, ...first.map(right => `${keptEach(batch, settlement([right, up]))}`)]);
    return tableOf("What the house keeps over the prices of S1 and S2",
        ["", ...first.map(price => `S1 = ${price}`)], rows);
}

/** @param {Batch} batch */
export function measureTable({certificate}) {
    const measure = certificate === null ? [] : certificate.measure;
    const rows = measure.map(({state, weight}, at) => [`${at + 1}`, stateWords(state),
        stateText(state), `${weight}`, `${FREE.times(weight, whole(state[0]))}`]);
    return tableOf("The measure", ["point", "at", "state", "weight", "mass"], rows);
}
