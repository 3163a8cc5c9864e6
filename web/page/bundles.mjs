// What a ticket says: a bundle of up to four options, its line, and the order that it would be.
import {whole} from "./fractions.mjs";
import {bundleWords} from "./words.mjs";

/** @typedef {import("./batch.mjs").Order} Order */
/** @typedef {{count: string, kind: string, strike: string, weights: string[]}} TicketLeg */
/** @typedef {{account: string, market: string, side: string, price: string, quantity: string,
 *     legs: TicketLeg[]}} Ticket */

/** No market is settled at a greater price. */
export const FARTHEST = 10n ** 9n;
const WHOLE = /^-?(?:0|[1-9][0-9]{0,12})$/;

/** Counts, kinds and strikes beside one another.
 * @type {{[name: string]: [count: number, kind: string, step: number][]}} */
export const TEMPLATES = {
    "call": [[1, "call", 0]],
    "put": [[1, "put", 0]],
    "call spread": [[1, "call", 0], [-1, "call", 2]],
    "put spread": [[1, "put", 2], [-1, "put", 0]],
    "butterfly": [[1, "call", -2], [-2, "call", 0], [1, "call", 2]],
    "bundle of four": [[1, "call", 0], [-1, "call", 2], [-1, "call", 4], [1, "call", 6]],
};

/** The legs of a template, of which the strike is in the middle, and the greater the wider.
 * @param {string} name @param {number} strike @param {string[]} weights
 * @returns {TicketLeg[]} */
export function legsFor(name, strike, weights) {
    const wide = Math.max(1, Math.floor(strike / 20));
    return TEMPLATES[name].map(([count, kind, step]) => ({count: `${count}`, kind,
        strike: `${strike + step * wide}`, weights: weights.slice()}));
}

/** What is wrong with a ticket, in a sentence; nothing where it can be sent.
 * @param {Ticket} ticket */
export function faultOf({account, market, price, quantity, legs}) {
    const numbers = [price, quantity, ...legs.flatMap(leg => [leg.count, leg.strike])];
    const weights = legs.map(leg => leg.weights);
    if (account === "" || market === "") {
        return "Open an account and choose a market first.";
    }
    if (![...numbers, ...weights.flat()].every(text => WHOLE.test(text) && text !== "-0")) {
        return "Each field is a whole number.";
    }
    if (BigInt(price) < 0n || BigInt(quantity) < 1n) {
        return "The price is at least 0, and the quantity at least 1.";
    }
    if (legs.some(leg => BigInt(leg.count) === 0n)) {
        return "No count is 0.";
    }
    return weights.some(each => each.every(weight => BigInt(weight) === 0n))
        ? "Not all weights of an option are 0." : "";
}

/** @param {TicketLeg} leg */
const optionFields = leg => [leg.kind, leg.strike, ...leg.weights];

/** The line that places a ticket's order.
 * @param {Ticket} ticket */
export function lineOf({account, market, side, price, quantity, legs}) {
    const [{kind, strike, weights, count}] = legs;
    if (legs.length === 1 && count === "1") {
        return [side, account, market, kind, strike, price, quantity, ...weights].join(",");
    }
    const parts = legs.flatMap(leg => [leg.count, ...optionFields(leg)]);
    return ["bundle", account, market, side, price, quantity, legs.length, ...parts].join(",");
}

/** @param {Ticket} ticket
 * @returns {Order} */
export function orderFor({account, side, price, quantity, legs}) {
    return {
        account: BigInt(account),
        number: 0n,
        isBuy: side === "buy",
        price: whole(BigInt(price)),
        quantity: whole(BigInt(quantity)),
        legs: legs.map(({count, kind, strike, weights}) => {
            const sign = kind === "call" ? 1n : -1n;
            const form = [-sign * BigInt(strike), ...weights.map(each => sign * BigInt(each))];
            return {count: BigInt(count), form};
        }),
    };
}

/** The order in words.
 * @param {Order} order */
export function wordsFor(order) {
    const most = order.price.over * order.quantity.over;
    const [verb, limit, paid] = order.isBuy
        ? ["Buy", "at most", `Up to ${most} ticks are reserved, and paid when it is filled.`]
        : ["Sell", "at least", "You are paid when it is filled, and owe what it pays at the"
            + " settlement."];
    return `${verb} ${order.quantity} of: ${bundleWords(order)}, for ${limit} ${order.price} each.`
        + ` ${paid}`;
}
