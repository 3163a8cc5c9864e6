// A journal: its lines, and the report of `check` or `audit` on it.
import {Fault} from "./kinds.mjs";
import {replyOrFault, verdictOn} from "./recheck.mjs";

/** @typedef {{line: number, reason: string, verdict: "no"}} No */
/** @typedef {{batches: number, bounded?: number, lines: number, optimal: number,
 *     verdict: "yes"}} Yes */

/** The lines of bytes; null for one that is not UTF-8.
 * @param {Uint8Array} bytes
 * @returns {(string | null)[]} */
export function linesOf(bytes) {
    /** @type {(string | null)[]} */
    const lines = [];
    let start = 0;
    while (start < bytes.length) {
        const found = bytes.indexOf(10, start);
        const end = found < 0 ? bytes.length : found;
        lines.push(decoded(bytes.subarray(start, end)));
        start = end + 1;
    }
    return lines;
}

/** @param {Uint8Array} bytes */
function decoded(bytes) {
    try {
        return new TextDecoder("utf-8", {fatal: true, ignoreBOM: true}).decode(bytes);
    } catch (_) {
        return null;
    }
}

/** The reason of a no on a line, or Yes; and the mark of its batch.
 * @param {string | null} text
 * @param {"check" | "audit"} word */
function judged(text, word) {
    if (text === null) {
        return {says: "NotJson", mark: ""};
    }
    const reply = replyOrFault(text, word);
    if (reply instanceof Fault) {
        return {says: reply.reason, mark: ""};
    }
    const mark = reply.get("reply") === "cleared" ? `${reply.get("mark")}` : "";
    return {says: verdictOn(reply), mark};
}

/** @param {Uint8Array} bytes @param {"check" | "audit"} word @returns {Yes | No} */
export function report(bytes, word) {
    const lines = linesOf(bytes);
    let [batches, bounded, optimal] = [0, 0, 0];
    for (const [at, text] of lines.entries()) {
        const {says, mark} = judged(text, word);
        if (says !== "Yes") {
            return {line: at + 1, reason: says, verdict: "no"};
        }
        batches += mark === "" ? 0 : 1;
        bounded += mark === "bounded" ? 1 : 0;
        optimal += mark === "optimal" ? 1 : 0;
    }
    const served = word === "audit" ? {bounded} : {};
    return {batches, ...served, lines: lines.length, optimal, verdict: "yes"};
}
