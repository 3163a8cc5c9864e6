// What an account needs in a market, counted as the exchange does where there is one underlying:
// with it, its balance is never below 0, whichever of its orders are filled, and whatever the price
// at the settlement.
import {Sums, ZERO, isAboveZero, isAtMost, negative, part, whole} from "./fractions.mjs";
import {bendOf, payoff, pays} from "./batch.mjs";
import {FARTHEST} from "./bundles.mjs";

/** @typedef {import("./batch.mjs").Form} Form */
/** @typedef {import("./batch.mjs").Order} Order */
/** @typedef {import("./batch.mjs").State} State */
/** @typedef {import("./fractions.mjs").Fraction} Fraction */
/** @typedef {{form: Form, owed: bigint}} Owed */

const FREE = new Sums(null);
// What is owed by fills is rounded up to parts of this size.
const PARTS = 2n ** 32n;

/** The least whole number that is not below.
 * @param {Fraction} value */
export const ceiling = ({over, under}) => over / under + (over % under > 0n ? 1n : 0n);

/** What the positions owe of each form, in parts.
 * @param {Order[]} positions
 * @returns {Owed[]} */
function owedOf(positions) {
    /** @type {Map<string, Owed>} */
    const sums = new Map();
    for (const {isBuy, quantity, legs} of positions) {
        /** @type {Map<string, Owed>} */
        const counts = new Map();
        legs.forEach(({count, form}) => add(counts, form, isBuy ? -count : count));
        counts.forEach(({form, owed}) =>
            add(sums, form, ceiling(FREE.times(quantity, whole(owed * PARTS)))));
    }
    return [...sums.values()];
}

/** @param {Map<string, Owed>} sums @param {Form} form @param {bigint} owed */
function add(sums, form, owed) {
    const before = sums.get(`${form}`);
    sums.set(`${form}`, {form, owed: (before === undefined ? 0n : before.owed) + owed});
}

/** What a live order may cost at a state beside its price, if it is filled whole.
 * @param {Order} order @param {State} state */
function lossOf(order, state) {
    const paid = pays(FREE, order, state);
    const loss = order.isBuy
        ? negative(paid) : FREE.less(paid, FREE.times(order.price, whole(state[0])));
    return isAboveZero(loss) ? FREE.times(order.quantity, loss) : ZERO;
}

/** @param {Owed[]} owed @param {Order[]} orders @param {State} state */
function exposure(owed, orders, state) {
    let sum = ZERO;
    for (const {form, owed: parts} of owed) {
        const each = FREE.times(whole(parts), part(PARTS));
        sum = FREE.add(sum, FREE.times(each, payoff(FREE, form, state)));
    }
    for (const order of orders) {
        sum = FREE.add(sum, lossOf(order, state));
    }
    return FREE.times(sum, part(state[0]));
}

/** The need of an account in a market of one underlying.
 * @param {Order[]} positions @param {Order[]} orders those that are live */
export function needOn(positions, orders) {
    const owed = owedOf(positions);
    const forms = [...owed.map(each => each.form),
        ...orders.flatMap(order => order.legs.map(leg => leg.form))];
    /** @type {State[]} */
    const states = [[1n, 0n], [1n, FARTHEST]];
    for (const form of forms) {
        const bend = bendOf(form);
        states.push(bend === null ? states[0] : bend);
    }
    const within = states.filter(([t, s]) => s <= FARTHEST * t);
    const greatest = within.map(state => exposure(owed, orders, state))
        .reduce((most, each) => isAtMost(most, each) ? each : most);
    const rounding = BigInt(positions.length + 2 * orders.length);
    const asked = ceiling(greatest) + rounding;
    return reserveOf(orders) + (asked > 0n ? asked : 0n);
}

/** What live buys reserve.
 * @param {Order[]} orders */
const reserveOf = orders => orders.filter(order => order.isBuy)
    .reduce((sum, {price, quantity}) => sum + price.over * quantity.over, 0n);

/** What one more order may need at most where there are several underlyings; null where just the
 * exchange can tell it.
 * @param {Order} order */
export function mostFor(order) {
    const [{count, form: [strike, ...weights]}] = order.legs;
    const isLong = order.legs.every(leg => leg.count > 0n);
    if (order.isBuy) {
        return isLong ? reserveOf([order]) + 2n : null;
    }
    if (order.legs.length > 1 || !isLong) {
        return null;
    }
    const far = weights.filter(weight => weight > 0n)
        .reduce((sum, weight) => sum + weight * FARTHEST, strike);
    const loss = count * (far > 0n ? far : 0n) - order.price.over;
    return (loss > 0n ? order.quantity.over * loss : 0n) + 2n;
}
