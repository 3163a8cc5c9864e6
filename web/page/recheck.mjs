// Rechecks one cleared line, told as text: reads it by the five tests, judges its batch, and shows
// each step. It rests on no other answer of the exchange.
import {Fault} from "./kinds.mjs";
import {NO_TABLE} from "./steps.mjs";
import {batchOf} from "./batch.mjs";
import {judge} from "./verdict.mjs";
import {readRun, readServed} from "./reading.mjs";

/** @typedef {import("./batch.mjs").Batch} Batch */
/** @typedef {import("./json_text.mjs").JsonObject} JsonObject */
/** @typedef {import("./steps.mjs").Step} Step */
/** @typedef {"check" | "audit"} Word which reads the lines of `run`, or those of `serve` too */
/** @typedef {{says: string, sentence: string, steps: Step[], batch: Batch | null}} Rechecked
 * says is Yes, or the reason of a no */

/** The tests of reading, in their order. */
const READING = [
    ["NotJson", "It is one JSON value"],
    ["Shape", "It has the keys and kinds of a cleared line"],
    ["Number", "Each number text is one, in lowest terms"],
    ["Range", "Each number is in its range"],
    ["Spelling", "It is spelled as the exchange spells it"],
];

/** @param {string} told */
const sentenceOf = told => `${told.slice(0, 1).toUpperCase()}${told.slice(1)}.`;

/** The steps of the reading, up to the test that fails, if one does.
 * @param {Fault | null} fault
 * @returns {Step[]} */
function readingSteps(fault) {
    const failed = READING.findIndex(([condition]) => fault !== null && condition === fault.reason);
    const tried = failed < 0 ? READING : READING.slice(0, failed + 1);
    return tried.map(([condition, title], at) => ({
        condition,
        title,
        holds: at !== failed,
        says: at !== failed || fault === null ? "" : sentenceOf(fault.message),
        table: NO_TABLE,
    }));
}

/** What a yes says.
 * @param {Batch} batch */
function promise({bound, mark, surplus}) {
    const covers = `Whatever the prices at the settlement, these fills leave the house ${surplus}`;
    if (mark === "optimal") {
        return `${covers}, and no fills of these orders leave more.`;
    }
    return bound === null ? `${covers}. The line does not say that this is the greatest.`
        : `${covers}, and no fills of these orders leave more than ${bound}.`;
}

/** What is said of steps that end with one that does not hold.
 * @param {Step} last @param {Batch | null} batch */
function refusal(last, batch) {
    if (last.condition !== "Wide" || batch === null) {
        return last.says;
    }
    const failed = judge(batch, null).find(step => !step.holds);
    const free = failed === undefined ? "all conditions hold" : `${failed.condition} fails`;
    return `${last.says} The exchange's own check ends here too. Without a limit, ${free}.`;
}

/** @param {Step[]} steps @param {Batch | null} batch
 * @returns {Rechecked} */
function concluded(steps, batch) {
    const last = steps[steps.length - 1];
    return batch !== null && last.holds
        ? {says: "Yes", sentence: promise(batch), steps, batch}
        : {says: last.condition, sentence: refusal(last, batch), steps, batch};
}

/** The reply of a line, or the fault of its reading.
 * @param {string} text @param {Word} word
 * @returns {JsonObject | Fault} */
export function replyOrFault(text, word) {
    try {
        return word === "check" ? readRun(text) : readServed(text);
    } catch (fault) {
        if (fault instanceof Fault) {
            return fault;
        }
        throw fault;
    }
}

/** The verdict on a reply that was read: Yes, or the reason of a no; Yes too where it is no batch.
 * @param {JsonObject} reply */
export function verdictOn(reply) {
    const steps = reply.get("reply") === "cleared" ? judge(batchOf(reply)) : [];
    const failed = steps.find(step => !step.holds);
    return failed === undefined ? "Yes" : failed.condition;
}

/** Rechecks a cleared line, or the answer to a message that tells one, without its line feed.
 * @param {string} text @param {Word} [word]
 * @returns {Rechecked} */
export function recheck(text, word = "audit") {
    const reply = replyOrFault(text, word);
    if (reply instanceof Fault) {
        return concluded(readingSteps(reply), null);
    }
    if (reply.get("reply") !== "cleared") {
        return concluded(readingSteps(new Fault("Shape", "this line clears no batch")), null);
    }
    const batch = batchOf(reply);
    return concluded([...readingSteps(null), ...judge(batch)], batch);
}
