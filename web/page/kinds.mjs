// Kinds of values in a reply line, and the tests that a value must pass: its shape, then the
// grammar of all its number texts, then all its ranges. A kind tests the shape at once and leaves
// the others for later.
import {LIMIT, commonDivisor, sizeOf} from "./fractions.mjs";
import {NumberText} from "./json_text.mjs";

/** @typedef {import("./json_text.mjs").Json} Json */
/** @typedef {import("./json_text.mjs").JsonObject} JsonObject */
/** @typedef {{numbers: (() => boolean)[], ranges: (() => boolean)[]}} Later */
/** @typedef {(value: Json, later: Later) => void} Kind */

/** The first thing that is wrong with a line, by its name in a report. */
export class Fault extends Error {
    /** @param {string} reason @param {string} [more] */
    constructor(reason, more) {
        super(more);
        this.reason = reason;
    }
}

/** @param {unknown} holds @param {string} reason @param {string} [more]
 * @returns {asserts holds} */
export function demand(holds, reason, more) {
    if (!holds) {
        throw new Fault(reason, more);
    }
}

/** All tests of a value in their order, or the fault of the first that fails.
 * @param {Kind} kind @param {Json} value */
export function pass(kind, value) {
    /** @type {Later} */
    const later = {numbers: [], ranges: []};
    kind(value, later);
    demand(later.numbers.every(test => test()), "Number",
        "a number text is none, or not in lowest terms");
    demand(later.ranges.every(test => test()), "Range", "a number is outside its range");
}

/** The value at a key that is there.
 * @param {JsonObject} members @param {string} key
 * @returns {Json} */
export function at(members, key) {
    const value = members.get(key);
    demand(value !== undefined, "Shape", `the key ${key} is missing`);
    return value;
}

// ---- numbers of JSON, and words

const WHOLE = /^(?:0|-?[1-9][0-9]*)$/;

/** @param {Json} value
 * @returns {value is NumberText} */
const isNumber = value => value instanceof NumberText && WHOLE.test(value.text)
    && BigInt(value.text) >= -(2n ** 63n) && BigInt(value.text) < 2n ** 64n;

/** A whole number of 64 bits.
 * @param {bigint} least @param {bigint} greatest
 * @returns {Kind} */
export const number = (least, greatest) => (value, later) => {
    demand(isNumber(value), "Shape", "what should be a number is none of 64 bits");
    later.ranges.push(() => BigInt(value.text) >= least && BigInt(value.text) <= greatest);
};

/** Whether a value is just this number.
 * @param {Json | undefined} value @param {number} expected */
export const isJust = (value, expected) =>
    value instanceof NumberText && value.text === `${expected}`;

/** @param {number} expected
 * @returns {Kind} */
export const just = expected => value =>
    demand(isJust(value, expected), "Shape", `a number is not ${expected}`);

/** @param {string[]} words
 * @returns {Kind} */
export const word = (...words) => value =>
    demand(typeof value === "string" && words.includes(value), "Shape",
        `a word is none of ${words.join(", ")}`);

/** True or false.
 * @type {Kind} */
export const truth = value => demand(typeof value === "boolean", "Shape", "no truth value");

// ---- numbers told as texts

const FRACTION = /^(?:0|-?[1-9][0-9]*|-?[1-9][0-9]*\/(?:[2-9]|[1-9][0-9]+))$/;

/** @param {string} told */
const partsOf = told => told.split("/").map(part => sizeOf(BigInt(part)));

/** Whether a fraction is in lowest terms, which is asked where its parts are within the limit.
 * @param {string} told */
function isLowest(told) {
    const [over, under] = partsOf(told);
    const isWide = over > LIMIT || under > LIMIT;
    return under === undefined || isWide || commonDivisor(over, under) === 1n;
}

/** @param {RegExp} grammar @param {(told: string) => boolean} isWithin
 * @returns {Kind} */
const text = (grammar, isWithin) => (value, later) => {
    demand(typeof value === "string", "Shape", "what should be a text is none");
    later.numbers.push(() => grammar.test(value) && isLowest(value));
    later.ranges.push(() => partsOf(value).every(part => part <= LIMIT) && isWithin(value));
};

export const fraction = text(FRACTION, () => true);

/** A fraction that is not below 0. */
export const part = text(FRACTION, told => !told.startsWith("-"));

/** A fraction above 0. */
export const share = text(FRACTION, told => told !== "0" && !told.startsWith("-"));

/** A whole number as a text, of this least value and greatest size.
 * @param {bigint} [least] @param {bigint} [most]
 * @returns {Kind} */
export const amount = (least, most = LIMIT) => text(WHOLE, told =>
    sizeOf(BigInt(told)) <= most && (least === undefined || BigInt(told) >= least));

/** One of these words, or else of a kind.
 * @param {Kind} kind @param {string[]} words
 * @returns {Kind} */
export const told = (kind, ...words) => (value, later) => {
    if (typeof value !== "string" || !words.includes(value)) {
        kind(value, later);
    }
};

// ---- lists and objects

/** @param {Kind} kind @param {(items: Json[]) => boolean} [test] of the range
 * @returns {Kind} */
export const list = (kind, test) => (value, later) => {
    demand(Array.isArray(value), "Shape", "what should be a list is none");
    value.forEach(item => kind(item, later));
    later.ranges.push(() => test === undefined || test(value));
};

/** A list whose length is a matter of its shape.
 * @param {number} least @param {number} most @param {Kind} kind
 * @returns {Kind} */
export const between = (least, most, kind) => (value, later) => {
    demand(Array.isArray(value) && value.length >= least && value.length <= most, "Shape",
        `what should be a list of ${least} to ${most} is none`);
    kind(value, later);
};

/** An object with just these keys.
 * @param {{[key: string]: Kind}} kinds
 * @param {(members: JsonObject) => boolean} [test] of the range
 * @returns {Kind} */
export const members = (kinds, test) => (value, later) => {
    const keys = Object.keys(kinds);
    demand(value instanceof Map && value.size === keys.length && keys.every(key => value.has(key)),
        "Shape", `an object has not just the keys ${keys.sort().join(", ")}`);
    keys.forEach(key => kinds[key](at(value, key), later));
    later.ranges.push(() => test === undefined || test(value));
};

/** @param {(value: Json) => Kind} pick by the value
 * @returns {Kind} */
export const picked = pick => (value, later) => pick(value)(value, later);
