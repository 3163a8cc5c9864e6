// Reading a reply line by five tests, of which the first that fails is told: NotJson, Shape,
// Number, Range, Spelling.
import {ANSWER, ASKED, GATES, RUN, SERVED, reply} from "./replies.mjs";
import {Fault, at, demand, isJust, pass} from "./kinds.mjs";
import {NotJson, NumberText, readJson, spelled} from "./json_text.mjs";

/** @typedef {import("./json_text.mjs").Json} Json */
/** @typedef {import("./json_text.mjs").JsonObject} JsonObject */
/** @typedef {import("./replies.mjs").Table} Table */

/** @param {string} text @param {string} reason where it is none @returns {Json} */
function valueOf(text, reason) {
    try {
        return readJson(text);
    } catch (fault) {
        throw fault instanceof NotJson ? new Fault(reason, fault.message) : fault;
    }
}

/** An order of version 2 that version 1 could tell.
 * @param {Json} order */
function isSingle(order) {
    const legs = order instanceof Map ? order.get("legs") : null;
    const [leg] = Array.isArray(legs) && legs.length === 1 ? legs : [null];
    return leg instanceof Map && isJust(leg.get("count"), 1);
}

/** A line of version 2 has an order that version 1 has not.
 * @param {JsonObject} value */
function isRightVersion(value) {
    const orders = value.get("orders");
    return !isJust(value.get("version"), 2) || !Array.isArray(orders) || !orders.every(isSingle);
}

/** @param {string} text @param {Json} value @param {Table} table @returns {JsonObject} */
function tested(text, value, table) {
    pass(reply(table), value);
    demand(value instanceof Map, "Shape");
    demand(spelled(value) === text && isRightVersion(value), "Spelling",
        "it is not as the exchange spells it");
    return value;
}

/** Whether it tells the reply to a message.
 * @param {Json} value @returns {value is JsonObject} */
const isAnswer = value => value instanceof Map && value.size === 3 && value.get("of") instanceof Map
    && value.get("number") instanceof NumberText && value.get("session") instanceof NumberText;

/** Whether it tells the reply to a question.
 * @param {Json} value @returns {value is JsonObject} */
const isAsked = value => value instanceof Map && value.size === 3 && value.get("of") instanceof Map
    && value.get("reply") === "asked" && value.get("session") instanceof NumberText;

/** The reply's part of the line of an answer, behind a head.
 * @param {string} text @param {string} head @param {string} tail */
function between(text, head, tail) {
    const inner = text.slice(head.length, text.length - tail.length);
    const isBraced = inner.startsWith("{") && inner.endsWith("}");
    demand(text === head + inner + tail && isBraced, "Spelling",
        "it is not as the exchange spells an answer");
    return inner;
}

/** The reply that an answer to a message or to a question tells, or the whole of another line.
 * @param {string} text @param {Json} value */
function replyIn(text, value) {
    if (isAnswer(value)) {
        pass(ANSWER, value);
        return between(text, `{"number":${spelled(at(value, "number"))},"of":`,
            `,"session":${spelled(at(value, "session"))}}`);
    }
    if (isAsked(value)) {
        pass(ASKED, value);
        return between(text, "{\"of\":",
            `,"reply":"asked","session":${spelled(at(value, "session"))}}`);
    }
    return text;
}

/** The reply of a line that `run` wrote.
 * @param {string} text @returns {JsonObject} */
export const readRun = text => tested(text, valueOf(text, "NotJson"), RUN);

/** The reply of a line that `serve` or `serve sessions` wrote; of an answer that which it tells.
 * @param {string} text @returns {JsonObject} */
export function readServed(text) {
    const value = valueOf(text, "NotJson");
    const inner = replyIn(text, value);
    if (inner !== text) {
        return tested(inner, valueOf(inner, "Spelling"), SERVED);
    }
    const isGate = value instanceof Map && value.get("reply") === "gate";
    return tested(text, value, isGate ? GATES : SERVED);
}
