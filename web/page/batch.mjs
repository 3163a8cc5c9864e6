// A batch as its cleared line tells it, and what its bundles pay.
import {ZERO, commonDivisor, fractionOf, isBelowZero, negative, sizeOf, whole}
    from "./fractions.mjs";
import {NumberText} from "./json_text.mjs";
import {at, demand} from "./kinds.mjs";

/** @typedef {import("./fractions.mjs").Fraction} Fraction */
/** @typedef {import("./fractions.mjs").Sums} Sums */
/** @typedef {import("./json_text.mjs").Json} Json */
/** @typedef {import("./json_text.mjs").JsonObject} JsonObject */
/** @typedef {bigint[]} Form the strike's entry, and a weight for each underlying */
/** @typedef {bigint[]} State t and entries s of prices: the settlement at s / t, or a ray */
/** @typedef {{count: bigint, form: Form}} Leg */
/** @typedef {{account: bigint, number: bigint, isBuy: boolean, price: Fraction, quantity: Fraction,
 *     legs: Leg[]}} Order */
/** @typedef {{state: State, weight: Fraction}} Point */
/** @typedef {{at: number, by: Fraction}} Multiplier of the leg at a place */
/** @typedef {{split: number} | {leaf: Multiplier[]}} Node */
/** @typedef {{of: number, by: Fraction}} ClassMultiplier */
/** @typedef {{split: number} | {full: number[], leaf: ClassMultiplier[]}
 *     | {bound: number, plus: ClassMultiplier[], minus: ClassMultiplier[]}} CellNode */
/** @typedef {"line" | "match" | Node[] | {cells: CellNode[]}} Cover */
/** @typedef {{cover: Cover, measure: Point[]}} Certificate */
/** @typedef {{batch: bigint, line: bigint, market: bigint, mark: string, underlyings: number,
 *     orders: Order[], fills: Fraction[], liability: Fraction, surplus: Fraction, units: bigint,
 *     certificate: Certificate | null, bound: Fraction | null}} Batch */

// ---- taken out of a line that passed the tests of reading

/** @param {Json} value */
function wholeOf(value) {
    demand(value instanceof NumberText, "Shape");
    return BigInt(value.text);
}

/** @param {JsonObject} members @param {string} key */
const wholeAt = (members, key) => wholeOf(at(members, key));

/** @param {JsonObject} members @param {string} key */
const fractionAt = (members, key) => fractionOf(`${at(members, key)}`);

/** @param {JsonObject} members @param {string} key @returns {Json[]} */
function listAt(members, key) {
    const value = at(members, key);
    demand(Array.isArray(value), "Shape");
    return value;
}

/** @template T
 * @param {JsonObject} members @param {string} key @param {(item: JsonObject) => T} take */
const objectsAt = (members, key, take) => listAt(members, key).map(item => {
    demand(item instanceof Map, "Shape");
    return take(item);
});

/** @param {JsonObject} members @returns {Form} */
const formAt = members => listAt(members, "form").map(wholeOf);

/** @param {JsonObject} leg @returns {Leg} */
const legOf = leg => ({count: wholeAt(leg, "count"), form: formAt(leg)});

/** @param {JsonObject} order @returns {Order} */
const orderOf = order => ({
    account: wholeAt(order, "account"),
    number: wholeAt(order, "order"),
    isBuy: order.get("side") === "buy",
    price: whole(wholeAt(order, "price")),
    quantity: whole(wholeAt(order, "quantity")),
    legs: order.has("form") ? [{count: 1n, form: formAt(order)}] : objectsAt(order, "legs", legOf),
});

/** @param {JsonObject} point @returns {Point} */
const pointOf = point => ({
    state: listAt(point, "state").map(entry => BigInt(`${entry}`)),
    weight: fractionAt(point, "weight"),
});

/** @param {JsonObject} multiplier
 * @returns {Multiplier} */
const multiplierOf = multiplier =>
    ({at: Number(wholeAt(multiplier, "at")), by: fractionAt(multiplier, "by")});

/** @param {JsonObject} node
 * @returns {Node} */
const nodeOf = node => node.has("split")
    ? {split: Number(wholeAt(node, "split"))}
    : {leaf: objectsAt(node, "leaf", multiplierOf)};

/** Classes, each with its multiplier behind it.
 * @param {JsonObject} node @param {string} key
 * @returns {ClassMultiplier[]} */
const classesAt = (node, key) => listAt(node, key).flatMap((of, place, list) => place % 2 === 1 ? []
    : [{of: Number(wholeOf(of)), by: fractionOf(`${list[place + 1]}`)}]);

/** @param {JsonObject} node
 * @returns {CellNode} */
function cellNodeOf(node) {
    if (node.has("split")) {
        return {split: Number(wholeAt(node, "split"))};
    }
    if (node.has("leaf")) {
        const full = node.has("full") ? listAt(node, "full") : [];
        return {full: full.map(of => Number(wholeOf(of))), leaf: classesAt(node, "leaf")};
    }
    const [plus, minus] = [classesAt(node, "plus"), classesAt(node, "minus")];
    return {bound: Number(wholeAt(node, "bound")), plus, minus};
}

/** @param {JsonObject} certificate
 * @returns {Cover} */
function coverOf(certificate) {
    const cover = at(certificate, "cover");
    if (cover instanceof Map) {
        return {cells: objectsAt(cover, "cells", cellNodeOf)};
    }
    return cover === "line" || cover === "match" ? cover : objectsAt(certificate, "cover", nodeOf);
}

/** @param {JsonObject} certificate
 * @returns {Certificate} */
const certificateOf = certificate =>
    ({cover: coverOf(certificate), measure: objectsAt(certificate, "measure", pointOf)});

/** The batch of a cleared line.
 * @param {JsonObject} reply @returns {Batch} */
export function batchOf(reply) {
    const certificate = reply.get("certificate");
    return {
        batch: wholeAt(reply, "batch"),
        line: wholeAt(reply, "line"),
        market: wholeAt(reply, "market"),
        mark: `${reply.get("mark")}`,
        underlyings: Number(wholeAt(reply, "underlyings")),
        orders: objectsAt(reply, "orders", orderOf),
        fills: listAt(reply, "fills").map(fill => fractionOf(`${fill}`)),
        liability: fractionAt(reply, "liability"),
        surplus: fractionAt(reply, "surplus"),
        units: wholeAt(reply, "units"),
        certificate: certificate instanceof Map ? certificateOf(certificate) : null,
        bound: reply.has("bound") ? fractionAt(reply, "bound") : null,
    };
}

// ---- what is paid

/** A number for a buy, and its negative for a sell.
 * @param {Order} order @param {Fraction} value */
export const signed = (order, value) => order.isBuy ? value : negative(value);

/** What an option pays at a state.
 * @param {Sums} sums @param {Form} form @param {State} state */
export function payoff(sums, form, state) {
    let value = ZERO;
    form.forEach((entry, place) => {
        value = sums.add(value, sums.times(whole(entry), whole(state[place])));
    });
    return isBelowZero(value) ? ZERO : value;
}

/** What the bundle of an order pays at a state.
 * @param {Sums} sums @param {Order} order
 * @param {State} state */
export function pays(sums, order, state) {
    let value = ZERO;
    for (const {count, form} of order.legs) {
        value = sums.add(value, sums.times(whole(count), payoff(sums, form, state)));
    }
    return value;
}

/** The net: what the house owes to buyers less what sellers owe it.
 * @param {Sums} sums @param {Batch} batch @param {State} state */
export function net(sums, {orders, fills}, state) {
    let owed = ZERO;
    orders.forEach((order, place) => {
        owed = sums.add(owed, signed(order, sums.times(fills[place], pays(sums, order, state))));
    });
    return owed;
}

/** The premium: what filled buyers pay less what filled sellers get.
 * @param {Sums} sums @param {Batch} batch */
export function premium(sums, {orders, fills}) {
    let paid = ZERO;
    orders.forEach((order, place) => {
        paid = sums.add(paid, signed(order, sums.times(fills[place], order.price)));
    });
    return paid;
}

/** The settlement at which an option bends; null where that is at no price above 0.
 * @param {Form} form @returns {State | null} */
export function bendOf([strike, weight]) {
    const shared = commonDivisor(strike, weight);
    return strike * weight < 0n ? [sizeOf(weight) / shared, sizeOf(strike) / shared] : null;
}
