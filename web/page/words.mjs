// How a batch's parts are told in words.
import {sizeOf} from "./fractions.mjs";

/** @typedef {import("./batch.mjs").Form} Form */
/** @typedef {import("./batch.mjs").Order} Order */
/** @typedef {import("./batch.mjs").State} State */

/** The underlying at a place from 0 among so many.
 * @param {number} place @param {number} count */
export const underlying = (place, count) => count === 1 ? "S" : `S${place + 1}`;

/** A sum of underlyings by their weights: 2 S1 − S3.
 * @param {bigint[]} weights */
function combination(weights) {
    const parts = weights.map((weight, place) => {
        const name = underlying(place, weights.length);
        const size = sizeOf(weight) === 1n ? name : `${sizeOf(weight)} ${name}`;
        return weight === 0n ? [] : [weight < 0n ? `− ${size}` : `+ ${size}`];
    });
    return parts.flat().join(" ").replace(/^\+ /, "").replace(/^− /, "−");
}

/** An option: as a call where its first weight is above 0, and else as the put that it is too.
 * @param {Form} form */
export function optionWords([strike, ...weights]) {
    const isCall = weights.some((weight, place) =>
        weight > 0n && weights.slice(0, place).every(before => before === 0n));
    const of = combination(isCall ? weights : weights.map(weight => -weight));
    return `${isCall ? `call ${-strike}` : `put ${strike}`}${of === "S" ? "" : ` on ${of}`}`;
}

/** @param {Order} order */
export function bundleWords({legs}) {
    const [{count, form}] = legs;
    const parts = legs.map(leg =>
        `${leg.count < 0n ? "−" : "+"}${sizeOf(leg.count)} ${optionWords(leg.form)}`);
    return legs.length === 1 && count === 1n ? optionWords(form) : parts.join(", ");
}

/** @param {Order} order */
export const sideWord = order => order.isBuy ? "buy" : "sell";

/** @param {State} state */
export const stateText = state => `(${state.join(", ")})`;

/** A state as the settlement or the ray that it is.
 * @param {State} state */
export function stateWords([t, ...prices]) {
    if (t === 0n) {
        return prices.length === 1 ? "the slope at last" : `ray ${prices.join(" : ")}`;
    }
    const told = prices.map(price => price % t === 0n ? `${price / t}` : `${price}/${t}`);
    return `${told.length === 1 ? "price" : "prices"} ${told.join(", ")}`;
}
