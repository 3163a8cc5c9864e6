// A tree of signs: each state falls through its splits to some leaf, whose sums bound the net.
import {ZERO, isAboveZero, isAtMost, isBelowZero, sizeOf, whole} from "./fractions.mjs";
import {refuted, shown, tableOf} from "./steps.mjs";

/** @typedef {import("./batch.mjs").Batch} Batch */
/** @typedef {import("./batch.mjs").Form} Form */
/** @typedef {import("./batch.mjs").Multiplier} Multiplier */
/** @typedef {import("./batch.mjs").Node} Node */
/** @typedef {import("./fractions.mjs").Fraction} Fraction */
/** @typedef {import("./fractions.mjs").Sums} Sums */
/** @typedef {import("./steps.mjs").Shown} Shown */
/** @typedef {{place: number, form: Form, isLong: boolean, fill: () => Fraction}} PlacedLeg
 * the fill is the order's times the size of the leg's count, summed where it is first used */

/** The legs of a batch, by their places from 1.
 * @param {Sums} sums @param {Batch} batch
 * @returns {PlacedLeg[]} */
function legsOf(sums, {orders, fills}) {
    const legs = orders.flatMap((order, at) =>
        order.legs.map(leg => ({order, leg, fill: fills[at]})));
    return legs.map(({order, leg: {count, form}, fill}, at) => {
        /** @type {Fraction | undefined} */
        let known;
        return {
            place: at + 1,
            form,
            isLong: order.isBuy === count > 0n,
            fill: () => known || (known = sums.times(fill, whole(sizeOf(count)))),
        };
    });
}

/** A walk through the nodes in preorder. Each part answers what is wrong, or an empty text. */
class Walk {
    /** @param {Sums} sums @param {Batch} batch @param {Node[]} nodes */
    constructor(sums, batch, nodes) {
        this.sums = sums;
        this.batch = batch;
        this.nodes = nodes;
        this.legs = legsOf(sums, batch);
        /** @type {Map<number, boolean>} */
        this.signs = new Map();
        this.next = 0;
        /** @type {string[][]} */
        this.rows = [];
    }

    whole() {
        const fault = this.subtree();
        const isOver = this.next < this.nodes.length;
        return fault === "" && isOver ? "Nodes are left after the tree." : fault;
    }

    /** @returns {string} */
    subtree() {
        const node = this.nodes[this.next];
        this.next += 1;
        if (node === undefined) {
            return "The list of nodes ends before the tree is whole.";
        }
        return "leaf" in node ? this.leaf(node.leaf) : this.split(node.split);
    }

    /** @param {number} place
     * @returns {string} */
    split(place) {
        const leg = this.legs[place - 1];
        if (leg === undefined || !leg.isLong || this.signs.has(place)) {
            return `Node ${this.next} splits at ${place}, which is no long leg without a sign.`;
        }
        this.signs.set(place, true);
        const fault = this.subtree();
        this.signs.set(place, false);
        const faults = fault === "" ? this.subtree() : fault;
        this.signs.delete(place);
        return faults;
    }

    /** @param {Multiplier[]} multipliers */
    leaf(multipliers) {
        const number = this.rows.length + 1;
        const signs = [...this.signs].map(([place, sign]) => `${place}${sign ? "+" : "−"}`);
        const factors = new Map(multipliers.map(({at, by}) => [at, by]));
        const told = multipliers.map(({at, by}) => `${at}: ${by}`);
        const row = [`${number}`, signs.join(" "), told.join(", ")];
        this.rows.push(row);
        const wrong = this.wrongMultiplier(multipliers);
        if (wrong !== "") {
            return `In leaf ${number} ${wrong}.`;
        }
        for (let entry = 0; entry <= this.batch.underlyings; entry += 1) {
            const sum = this.entrySum(factors, entry);
            row.push(`${sum}`);
            if (isAboveZero(sum)) {
                return `In leaf ${number} entry ${entry} sums to ${sum}, which is above 0.`;
            }
        }
        return "";
    }

    /** @param {Multiplier[]} multipliers */
    wrongMultiplier(multipliers) {
        const {legs} = this;
        if (multipliers.some(({at}, place) => place > 0 && multipliers[place - 1].at >= at)) {
            return "the places do not rise";
        }
        if (multipliers.some(({at}) => at > legs.length || this.isUnsigned(at))) {
            return "a place is no leg of the batch, or a long one without a sign";
        }
        if (multipliers.some(({by}) => isBelowZero(by))) {
            return "a multiplier is below 0";
        }
        const isOver = (/** @type {Multiplier} */ {at, by}) =>
            !legs[at - 1].isLong && !isAtMost(by, legs[at - 1].fill());
        return multipliers.some(isOver) ? "a short leg's multiplier is above its fill" : "";
    }

    /** Whether the leg of a place is long and has no sign.
     * @param {number} place */
    isUnsigned(place) {
        return this.legs[place - 1].isLong && !this.signs.has(place);
    }

    /** @param {Map<number, Fraction>} factors @param {number} entry */
    entrySum(factors, entry) {
        let sum = ZERO;
        for (const leg of this.legs) {
            sum = this.withLeg(sum, leg, factors.get(leg.place) || ZERO, entry);
        }
        return entry === 0 ? this.sums.less(sum, this.batch.liability) : sum;
    }

    /** The sum, and what a leg with this multiplier adds to an entry.
     * @param {Fraction} sum @param {PlacedLeg} leg @param {Fraction} factor
     * @param {number} entry */
    withLeg(sum, leg, factor, entry) {
        const {sums} = this;
        const sign = this.signs.get(leg.place);
        const value = whole(leg.form[entry]);
        if (!leg.isLong || sign === false) {
            return sums.less(sum, sums.times(factor, value));
        }
        const own = sign === undefined && isBelowZero(value) ? ZERO : value;
        const filled = sums.add(sum, sums.times(leg.fill(), own));
        return sign === undefined ? filled : sums.add(filled, sums.times(factor, value));
    }
}

/** @param {Sums} sums @param {Batch} batch
 * @returns {Shown} */
export function treeHolds(sums, batch) {
    const cover = batch.certificate === null ? [] : batch.certificate.cover;
    const walk = new Walk(sums, batch, Array.isArray(cover) ? cover : []);
    const fault = walk.whole();
    const entries = Array.from({length: batch.underlyings}, (_, at) => `entry ${at + 1}`);
    const table = tableOf("The sums of each leaf, of which none may be above 0",
        ["leaf", "signs", "multipliers", "entry 0", ...entries], walk.rows);
    return fault === ""
        ? shown("Each state lies in some leaf, and its sums bound the net by the liability.", table)
        : refuted(fault, table);
}
