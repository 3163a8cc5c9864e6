// The page of a cleared batch: lines are read, one batch is picked, drawn and rechecked.
import {PictureView} from "./picture_view.mjs";
import {Fault} from "./kinds.mjs";
import {batchOf} from "./batch.mjs";
import {element, tableElement} from "./tables.mjs";
import {brief, factsOf, fillTable} from "./batch_tables.mjs";
import {isDrawable} from "./seen.mjs";
import {linesOf} from "./journal.mjs";
import {replyOrFault} from "./recheck.mjs";

/** @typedef {import("./batch.mjs").Batch} Batch */
/** @typedef {import("./recheck.mjs").Rechecked} Rechecked */
/** @typedef {import("./steps.mjs").Step} Step */
/** @typedef {{text: string, at: number, batch: Batch | null, told: string}} Entry
 * a line that clears a batch, or seems to, and its place among the lines that were read */

/** @template {HTMLElement} T
 * @param {string} id @param {new () => T} kind
 * @returns {T} */
function part(id, kind) {
    const found = document.getElementById(id);
    if (!(found instanceof kind)) {
        throw new Error(`the page has no ${id}`);
    }
    return found;
}

const file = part("file", HTMLInputElement);
const lines = part("lines", HTMLTextAreaElement);
const told = part("told", HTMLParagraphElement);
const choice = part("choice", HTMLParagraphElement);
const batches = part("batches", HTMLSelectElement);
const verdict = part("verdict", HTMLParagraphElement);
const button = part("recheck", HTMLButtonElement);
const stepList = part("step-list", HTMLOListElement);
const sections = ["facts", "picture", "fills", "steps"].map(id => part(id, HTMLElement));
const view = new PictureView();

/** @type {Entry[]} */
let entries = [];
/** @type {Worker | null} */
let worker = null;

/** @param {string} id @param {boolean} isShown */
function show(id, isShown) {
    part(id, HTMLElement).hidden = !isShown;
}

// ---- reading

/** @param {string} text @param {number} at
 * @returns {Entry} */
function entryOf(text, at) {
    const reply = replyOrFault(text, "audit");
    if (reply instanceof Fault || reply.get("reply") !== "cleared") {
        const reason = reply instanceof Fault ? reply.reason : "no batch";
        return {text, at, batch: null, told: `line ${at}: not read, ${reason}`};
    }
    const batch = batchOf(reply);
    const said = `${batch.batch}: ${batch.mark}, ${brief(batch.surplus)} (market ${batch.market})`;
    return {text, at, batch, told: said};
}

/** @param {Uint8Array} bytes */
function read(bytes) {
    const all = linesOf(bytes).map((text, place) => ({text: text || "", at: place + 1}));
    const cleared = all.filter(({text}) => text.includes('"cleared"'));
    entries = cleared.map(({text, at}) => entryOf(text, at));
    told.textContent = `Lines: ${all.length}. Cleared batches: ${entries.length}.`;
    batches.replaceChildren();
    entries.forEach((entry, at) =>
        batches.append(element("option", {value: `${at}`}, entry.told)));
    choice.hidden = entries.length === 0;
    pick();
}

// ---- one batch

/** @returns {Entry | undefined} */
const picked = () => entries[Number(batches.value)];

function pick() {
    forget();
    const entry = picked();
    sections.forEach(section => {
        section.hidden = true;
    });
    if (entry !== undefined) {
        showEntry(entry);
    }
}

/** @param {Entry} entry */
function showEntry({at, batch, told: said}) {
    const facts = batch === null
        ? [["line", said]] : [...factsOf(batch), ["line", `${at} of those read`]];
    const list = facts.flatMap(([name, value]) => [element("dt", {}, name),
        element("dd", name === "surplus" || name === "bound" ? {class: "great"} : {}, value)]);
    part("fact-list", HTMLDListElement).replaceChildren(...list);
    show("facts", true);
    if (batch !== null && isDrawable(batch)) {
        part("fill-table", HTMLDivElement).replaceChildren(tableElement(fillTable(batch)));
        show("picture", true);
        show("fills", true);
        view.show(batch);
    }
}

// ---- the recheck

function forget() {
    if (worker !== null) {
        worker.terminate();
        worker = null;
    }
    verdict.textContent = "";
    verdict.className = "";
    button.disabled = false;
    show("steps", false);
}

function recheck() {
    const entry = picked();
    if (entry !== undefined) {
        forget();
        button.disabled = true;
        verdict.textContent = "Rechecking …";
        worker = new Worker("recheck_worker.mjs", {type: "module"});
        worker.addEventListener("message", event => conclude(event.data));
        worker.addEventListener("error", event => {
            forget();
            const why = event.message || "it could not begin";
            verdict.textContent = `The recheck broke off, which is no yes: ${why}`;
        });
        worker.postMessage(entry.text);
    }
}

/** @param {Rechecked} rechecked */
function conclude({says, sentence, steps}) {
    const isYes = says === "Yes";
    button.disabled = false;
    verdict.className = isYes ? "yes" : "no";
    verdict.replaceChildren(element("strong", {}, isYes ? "✓ Yes. " : `✗ No: ${says}. `), sentence);
    stepList.replaceChildren(...steps.map(stepElement));
    show("steps", true);
    verdict.focus();
}

/** @param {Step} step */
function stepElement({condition, title, holds, says, table}) {
    const mark = element("span", {class: holds ? "holds" : "fails"}, holds ? "✓ " : "✗ ");
    const head = [mark, element("strong", {}, title), ` (${condition}). ${says}`];
    if (table.rows.length === 0) {
        return element("li", {}, ...head);
    }
    const details = element("details", holds ? {} : {open: ""},
        element("summary", {}, ...head), tableElement(table));
    return element("li", {}, details);
}

// ---- what is done on the page

file.addEventListener("change", async () => {
    const chosen = file.files === null ? null : file.files[0];
    if (chosen) {
        read(new Uint8Array(await chosen.arrayBuffer()));
    }
});
part("read", HTMLButtonElement).addEventListener("click", () =>
    read(new TextEncoder().encode(lines.value)));
part("example", HTMLButtonElement).addEventListener("click", async () => {
    lines.value = await (await fetch("example.replies")).text();
    read(new TextEncoder().encode(lines.value));
});
/** The line of a batch of a gateway's exchange, or why there is none.
 * @param {string} number */
async function askNamed(number) {
    try {
        const answer = await fetch(`batches/${number}`);
        const text = await answer.text();
        const why = answer.status === 401
            ? "log in first" : `the answer has status ${answer.status}`;
        return answer.ok ? {text, why: ""} : {text: "", why};
    } catch (fault) {
        return {text: "", why: "nobody answers"};
    }
}

/** Behind a gateway the page's place names a batch of its exchange. */
async function openNamed() {
    const named = location.hash;
    if (/^#[1-9][0-9]*$/.test(named)) {
        const {text, why} = await askNamed(named.slice(1));
        // Meanwhile it may name another one.
        if (location.hash === named) {
            lines.value = text;
            read(new TextEncoder().encode(text));
            told.textContent = why === "" ? told.textContent
                : `Batch ${named.slice(1)} is not read: ${why}.`;
        }
    }
}

batches.addEventListener("change", pick);
window.addEventListener("hashchange", openNamed);
openNamed();
button.addEventListener("click", recheck);
