// A batch as numbers that a picture needs: rounded, and so for drawing alone. What is told in words
// and tables is summed exactly.
import {Sums, isBelowZero, sizeOf, whole} from "./fractions.mjs";
import {net, premium} from "./batch.mjs";

/** @typedef {import("./batch.mjs").Batch} Batch */
/** @typedef {import("./batch.mjs").State} State */
/** @typedef {import("./fractions.mjs").Fraction} Fraction */
/** @typedef {{count: number, form: number[]}[]} Legs */
/** @typedef {{place: number, prices: number[], isRay: boolean, mass: number}} Spot
 * a point of the measure: prices, or the direction of a ray; and weight · t, or a ray's weight */

const FREE = new Sums(null);
// No market is settled at a greater price.
const FARTHEST = 1e9;

// No double holds parts that are as great as this; so many of a whole one are told of these then.
const GREAT = 2n ** 1000n;
const PARTS = 2n ** 64n;

/** @param {Fraction} value */
export const near = ({over, under}) => sizeOf(over) < GREAT && under < GREAT
    ? Number(over) / Number(under) : Number(over * PARTS / under) / Number(PARTS);

/** What the house keeps at a settlement: the premium less the net, times t.
 * @param {Batch} batch @param {State} state */
export const kept = (batch, state) => FREE.less(
    FREE.times(premium(FREE, batch), whole(state[0])), net(FREE, batch, state));

/** @param {Batch} batch
 * @returns {Spot[]} */
export function spotsOf({certificate}) {
    const measure = certificate === null ? [] : certificate.measure;
    return measure.map(({state: [t, ...entries], weight}, at) => ({
        place: at + 1,
        prices: entries.map(entry => t === 0n ? Number(entry) : Number(entry) / Number(t)),
        isRay: t === 0n,
        mass: near(weight) * (t === 0n ? 1 : Number(t)),
    }));
}

export class Seen {
    /** @param {Batch} batch */
    constructor(batch) {
        this.underlyings = batch.underlyings;
        this.surplus = near(batch.surplus);
        this.bound = batch.bound === null ? null : near(batch.bound);
        this.spots = spotsOf(batch);
        this.orders = batch.orders.map((order, at) => ({
            fill: near(batch.fills[at]) * (order.isBuy ? 1 : -1),
            price: near(order.price),
            legs: order.legs.map(({count, form}) =>
                ({count: Number(count), form: form.map(Number)})),
        }));
        this.filled = this.orders.filter(order => order.fill !== 0);
    }

    /** What the house keeps at these prices.
     * @param {number[]} prices */
    keptAt(prices) {
        return this.filled.reduce((sum, {fill, price, legs}) =>
            sum + fill * (price - payoffAt(legs, prices)), 0);
    }

    /** How great the numbers are that are summed, for what is lost in rounding. */
    size() {
        return this.filled.reduce((sum, {fill, price}) => sum + Math.abs(fill) * (price + 1), 1);
    }

    /** A price of each underlying up to which a picture goes: all bends, and the measure's prices.
     * @param {number} axis */
    reach(axis) {
        const forms = this.orders.flatMap(order => order.legs.map(leg => leg.form));
        const bends = forms.map(form => -form[0] / form[axis + 1]);
        const seen = this.spots.filter(spot => !spot.isRay).map(spot => spot.prices[axis]);
        const known = [...bends, ...seen].filter(price => price > 0 && price <= FARTHEST);
        return Math.ceil(Math.max(8, ...known) * 1.25);
    }

    /** Prices of one underlying between which what is kept is straight, the others' prices fixed.
     * @param {number} axis @param {number[]} prices */
    bendsAlong(axis, prices) {
        const greatest = this.reach(axis);
        const forms = this.filled.flatMap(order => order.legs.map(leg => leg.form));
        const bends = forms.map(form => {
            const others = form.reduce((sum, entry, at) =>
                at === 0 || at === axis + 1 ? sum : sum + entry * prices[at - 1], form[0]);
            return -others / form[axis + 1];
        });
        const within = bends.filter(price => price > 0 && price < greatest);
        return [...new Set([0, ...within, greatest])].sort((a, b) => a - b);
    }
}

/** @param {Legs} legs @param {number[]} prices */
function payoffAt(legs, prices) {
    return legs.reduce((sum, {count, form}) => {
        const value = prices.reduce((total, price, at) => total + form[at + 1] * price, form[0]);
        return sum + count * Math.max(0, value);
    }, 0);
}

/** Whether all parts are of one batch, so that it can be drawn.
 * @param {Batch} batch */
export function isDrawable({certificate, fills, orders, underlyings}) {
    const forms = orders.flatMap(order => order.legs.map(leg => leg.form));
    const states = certificate === null ? [] : certificate.measure.map(point => point.state);
    return fills.length === orders.length && !fills.some(isBelowZero)
        && [...forms, ...states].every(entries => entries.length === underlyings + 1);
}
