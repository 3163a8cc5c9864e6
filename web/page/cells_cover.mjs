// A cover by cells: a tree over classes of options. Down the tree a class gets a sign, or a greater
// bound of what its option pays; each leaf has sums that bound the net at the states of its cell.
import {ZERO, commonDivisor, isAboveZero, isAtMost, isBelowZero, negative, sizeOf, whole}
    from "./fractions.mjs";
import {refuted, shown, tableOf} from "./steps.mjs";

/** @typedef {import("./batch.mjs").Batch} Batch */
/** @typedef {import("./batch.mjs").CellNode} CellNode */
/** @typedef {import("./batch.mjs").ClassMultiplier} ClassMultiplier */
/** @typedef {import("./batch.mjs").Form} Form */
/** @typedef {import("./fractions.mjs").Fraction} Fraction */
/** @typedef {import("./fractions.mjs").Sums} Sums */
/** @typedef {import("./steps.mjs").Shown} Shown */
/** @typedef {Fraction[]} Vector an entry for t, and one for each price */
/** @typedef {{option: Form, kink: Fraction}} Class */

/** The option of which a form is a multiple, its first weight above 0, and the factor.
 * @param {Form} form
 * @returns {{option: Form, factor: bigint}} */
export function classOf(form) {
    const size = form.reduce(commonDivisor, 0n);
    const first = form.slice(1).find(weight => weight !== 0n) || 0n;
    const factor = first < 0n ? -size : size;
    return {option: form.map(entry => entry / factor), factor};
}

/** The options of a batch's classes, as they first come.
 * @param {Batch} batch */
function optionsOf({orders}) {
    const forms = orders.flatMap(order => order.legs.map(leg => classOf(leg.form).option));
    return [...new Map(forms.map(option => [`${option}`, option])).values()];
}

/** The vector with a multiple of a form added.
 * @param {Sums} sums @param {Vector} vector @param {Fraction} factor @param {Vector} form */
const plus = (sums, vector, factor, form) =>
    vector.map((entry, at) => sums.add(entry, sums.times(factor, form[at])));

/** @param {Form} option */
const vectorOf = option => option.map(whole);

/** The kinks of the classes, and the slope: the net is the slope, and each kink times what the
 * class's option pays.
 * @param {Sums} sums @param {Batch} batch
 * @returns {{classes: Class[], slope: Vector}} */
function kinksOf(sums, batch) {
    const options = optionsOf(batch);
    const classes = options.map(option => ({option, kink: ZERO}));
    const places = new Map(options.map((option, place) => [`${option}`, place]));
    /** @type {Vector} */
    let slope = Array(batch.underlyings + 1).fill(ZERO);
    batch.orders.forEach((order, at) => order.legs.forEach(({count, form}) => {
        const {option, factor} = classOf(form);
        const size = sums.times(batch.fills[at], whole(sizeOf(count * factor)));
        const owed = order.isBuy === count > 0n ? size : negative(size);
        const own = classes[places.get(`${option}`) || 0];
        own.kink = sums.add(own.kink, owed);
        slope = factor < 0n ? plus(sums, slope, negative(owed), vectorOf(option)) : slope;
    }));
    return {classes, slope};
}

/** The classes that a node names.
 * @param {CellNode} node */
function classesIn(node) {
    if ("leaf" in node) {
        return [...node.full, ...node.leaf.map(({of}) => of)];
    }
    return "split" in node
        ? [node.split] : [node.bound, ...[...node.plus, ...node.minus].map(({of}) => of)];
}

/** Whether the nodes are one whole tree, over classes that the batch has.
 * @param {Batch} batch @param {CellNode[]} nodes */
export function areCells(batch, nodes) {
    const count = optionsOf(batch).length;
    let open = 1;
    const isTree = nodes.every(node => {
        const isReached = open > 0;
        open += "split" in node ? 1 : "leaf" in node ? -1 : 0;
        return isReached && classesIn(node).every(of => of <= count);
    });
    return isTree && open === 0;
}

/** A walk through the nodes in preorder, without recursion, since bounds stand below bounds. */
class Walk {
    /** @param {Sums} sums @param {Batch} batch @param {CellNode[]} nodes */
    constructor(sums, batch, nodes) {
        const {classes, slope} = kinksOf(sums, batch);
        this.sums = sums;
        this.nodes = nodes;
        this.liability = batch.liability;
        this.classes = classes;
        /** @type {Map<number, boolean>} */
        this.signs = new Map();
        this.bounds = classes.map(({option}) =>
            vectorOf(option.map(each => each > 0n ? each : 0n)));
        this.total = classes.reduce((total, {kink}, at) =>
            isAboveZero(kink) ? plus(sums, total, kink, this.bounds[at]) : total, slope);
        /** @type {(() => boolean)[]} what goes on behind a subtree; true where another one comes */
        this.behind = [];
        /** @type {string[][]} */
        this.rows = [];
    }

    /** What is wrong, or an empty text. */
    whole() {
        let fault = "";
        for (const node of this.nodes) {
            fault = fault || this.node(node);
        }
        return fault;
    }

    /** @param {CellNode} node */
    node(node) {
        if ("leaf" in node) {
            const fault = this.leaf(node.full, node.leaf);
            this.leave();
            return fault;
        }
        return "split" in node ? this.split(node.split) : this.bound(node);
    }

    /** Behind a leaf: what stood before its subtrees, up to a split whose second one comes. */
    leave() {
        let comes = false;
        while (!comes && this.behind.length > 0) {
            comes = this.behind[this.behind.length - 1]();
            this.behind.length -= comes ? 0 : 1;
        }
    }

    /** The sums without what the bound of a class adds to them.
     * @param {number} of */
    without(of) {
        const {kink} = this.classes[of - 1];
        return isAboveZero(kink)
            ? plus(this.sums, this.total, negative(kink), this.bounds[of - 1]) : this.total;
    }

    /** @param {number} of */
    split(of) {
        if (this.signs.has(of)) {
            return `Class ${of} is split where it has a sign.`;
        }
        const before = this.total;
        const {kink, option} = this.classes[of - 1];
        this.total = plus(this.sums, this.without(of), kink, vectorOf(option));
        this.signs.set(of, true);
        this.behind.push(() => {
            this.total = before;
            const wasPlus = this.signs.get(of) === true;
            this.signs.delete(of);
            if (wasPlus) {
                this.total = this.without(of);
                this.signs.set(of, false);
            }
            return wasPlus;
        });
        return "";
    }

    /** A vector and multiples of signed classes; null where one is not signed, or below 0.
     * @param {Vector} from @param {ClassMultiplier[]} multipliers */
    combined(from, multipliers) {
        let vector = from;
        for (const {of, by} of multipliers) {
            const sign = this.signs.get(of);
            if (sign === undefined || isBelowZero(by)) {
                return null;
            }
            const option = vectorOf(this.classes[of - 1].option);
            vector = plus(this.sums, vector, sign ? by : negative(by), option);
        }
        return vector;
    }

    /** @param {{bound: number, plus: ClassMultiplier[], minus: ClassMultiplier[]}} node */
    bound(node) {
        const of = node.bound;
        const {kink, option} = this.classes[of - 1];
        const over = this.signs.has(of) ? null : this.combined(option.map(() => ZERO), node.plus);
        const under = over === null ? null : this.combined(vectorOf(option), node.minus);
        if (over === null || under === null) {
            return `A bound of class ${of} has a sign where none may be, or none where one must.`;
        }
        const [before, earlier] = [this.total, this.bounds[of - 1]];
        const bare = this.without(of);
        this.bounds[of - 1] = over.map((entry, at) =>
            isAtMost(entry, under[at]) ? under[at] : entry);
        this.total = isAboveZero(kink) ? plus(this.sums, bare, kink, this.bounds[of - 1]) : bare;
        this.behind.push(() => {
            [this.total, this.bounds[of - 1]] = [before, earlier];
            return false;
        });
        return "";
    }

    /** Whether a class has no sign, and more is sold than bought of it.
     * @param {number} of */
    isShort(of) {
        return !this.signs.has(of) && isBelowZero(this.classes[of - 1].kink);
    }

    /** @param {ClassMultiplier} multiplier */
    isRight({of, by}) {
        const isWithin = () => this.isShort(of)
            && isAtMost(by, negative(this.classes[of - 1].kink));
        return !isBelowZero(by) && (this.signs.has(of) || isWithin());
    }

    /** @param {number[]} full @param {ClassMultiplier[]} multipliers */
    leaf(full, multipliers) {
        const number = this.rows.length + 1;
        const signs = [...this.signs].map(([of, sign]) => `${of}${sign ? "+" : "−"}`).join(" ");
        const told = multipliers.map(({of, by}) => `${of}: ${by}`);
        const row = [`${number}`, signs, [...full.map(of => `${of}: all`), ...told].join(", ")];
        this.rows.push(row);
        const named = new Set(multipliers.map(({of}) => of));
        if (!full.every(of => this.isShort(of) && !named.has(of))
            || !multipliers.every(each => this.isRight(each))) {
            return `In leaf ${number} a multiplier is out of its range.`;
        }
        for (let entry = 0; entry < this.total.length; entry += 1) {
            const sum = this.entrySum(full, multipliers, entry);
            row.push(`${sum}`);
            if (isAboveZero(sum)) {
                return `In leaf ${number} entry ${entry} sums to ${sum}, which is above 0.`;
            }
        }
        return "";
    }

    /** @param {number[]} full @param {ClassMultiplier[]} multipliers @param {number} entry */
    entrySum(full, multipliers, entry) {
        const {classes, sums} = this;
        const all = full.map(of => ({of, by: classes[of - 1].kink}));
        const own = multipliers.map(({of, by}) =>
            ({of, by: this.signs.get(of) === true ? by : negative(by)}));
        const sum = [...all, ...own].reduce((total, {of, by}) =>
            sums.add(total, sums.times(by, whole(classes[of - 1].option[entry]))),
        this.total[entry]);
        return entry === 0 ? sums.less(sum, this.liability) : sum;
    }
}

/** @param {Sums} sums @param {Batch} batch
 * @returns {Shown} */
export function cellsHold(sums, batch) {
    const cover = batch.certificate === null ? "match" : batch.certificate.cover;
    const nodes = typeof cover === "object" && "cells" in cover ? cover.cells : [];
    const walk = new Walk(sums, batch, nodes);
    const fault = walk.whole();
    const entries = Array.from({length: batch.underlyings}, (_, at) => `entry ${at + 1}`);
    const table = tableOf("The sums of each leaf, of which none may be above 0",
        ["leaf", "signs", "multipliers", "entry 0", ...entries], walk.rows);
    return fault === ""
        ? shown("Each state lies in the cell of a leaf, and its sums bound the net there.", table)
        : refuted(fault, table);
}
