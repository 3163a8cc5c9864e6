// Tables of the page.

/** @typedef {import("./steps.mjs").Table} Table */

const MOST = 200;
const NUMBER = /^-?[0-9]+(?:\/[0-9]+)?$/;

/** An element of the page with this text or these parts.
 * @param {string} name @param {{[name: string]: string}} [attributes]
 * @param {(Node | string)[]} parts */
export function element(name, attributes = {}, ...parts) {
    const made = document.createElement(name);
    Object.entries(attributes).forEach(([key, value]) => made.setAttribute(key, value));
    made.append(...parts);
    return made;
}

/** How a cell is set: numbers to the right, and long texts in several lines.
 * @param {string | Node} cell
 * @returns {{[name: string]: string}} */
function kindOf(cell) {
    if (typeof cell !== "string" || cell === "") {
        return {};
    }
    return NUMBER.test(cell) ? {class: "number"} : cell.length > 40 ? {class: "long"} : {};
}

/** @param {string | Node} cell */
function cellOf(cell) {
    if (cell === "holds" || cell === "fails") {
        return element("td", {class: cell}, cell === "holds" ? "✓ holds" : "✗ fails");
    }
    return element("td", kindOf(cell), cell);
}

/** @param {(string | Node)[]} cells */
const rowOf = cells => element("tr", {}, ...cells.map(cellOf));

/** A table that scrolls within its place, by keys too. Long ones show their first rows, and all
 * where that is asked for.
 * @param {{caption: string, head: string[], rows: (string | Node)[][]}} table */
export function tableElement({caption, head, rows}) {
    const body = element("tbody", {}, ...rows.slice(0, MOST).map(rowOf));
    const heads = head.map((each, at) =>
        element("th", {scope: "col", ...kindOf(rows.length === 0 ? "" : rows[0][at])}, each));
    const table = element("table", {}, element("caption", {}, caption),
        element("thead", {}, element("tr", {}, ...heads)), body);
    const scroll = element("div",
        {class: "scroll", tabindex: "0", role: "region", "aria-label": caption}, table);
    if (rows.length > MOST) {
        const more = element("button", {type: "button", class: "quiet more"},
            `Show all ${rows.length} rows`);
        more.addEventListener("click", () => {
            rows.slice(MOST).forEach(row => body.append(rowOf(row)));
            scroll.setAttribute("data-all", "");
            more.remove();
        });
        return element("div", {}, scroll, more);
    }
    return scroll;
}

/** @typedef {{isOpen: boolean, isAll: boolean, hasFocus: boolean, top: number, left: number}} Held
 * what a reader set of a part: whether it is unfolded, shows all its rows, or has the focus, and
 * how far it is scrolled */

const SET = "details, summary, .scroll, a, button";
/** @type {WeakMap<Element, string>} */
const shown = new WeakMap();

/** What tells a part from others of a place, also after it is made anew.
 * @param {Element} part */
const nameOf = part => `${part.tagName} ${part.getAttribute("aria-label")
    || (part.querySelector("summary") || part).textContent}`;

/** @param {Element} place */
const partsOf = place => Array.from(place.querySelectorAll(SET));

/** @param {Element} part
 * @returns {Held} */
const setOf = part => ({isOpen: part.hasAttribute("open"), isAll: part.hasAttribute("data-all"),
    hasFocus: part === document.activeElement, top: part.scrollTop, left: part.scrollLeft});

/** @param {Element} part @param {Held} set */
function setAgain(part, {isOpen, isAll, hasFocus, top, left}) {
    part.toggleAttribute("open", isOpen);
    if (isAll && part.nextElementSibling instanceof HTMLButtonElement) {
        part.nextElementSibling.click();
    }
    if (top + left > 0) {
        part.scrollTo(left, top);
    }
    if (hasFocus && part instanceof HTMLElement) {
        part.focus({preventScroll: true});
    }
}

/** Sets what a place shows. Where nothing of it is new it stays, and else what a reader set.
 * @param {Element} place @param {...Element} parts */
export function renew(place, ...parts) {
    const told = parts.map(part => part.outerHTML).join("");
    // Rows that are not shown yet may be new.
    const isWhole = parts.every(part => part.querySelector(".more") === null);
    if (isWhole && shown.get(place) === told) {
        return;
    }
    shown.set(place, told);
    const before = new Map(partsOf(place).map(part => [nameOf(part), setOf(part)]));
    place.replaceChildren(...parts);
    for (const part of partsOf(place)) {
        const set = before.get(nameOf(part));
        if (set !== undefined) {
            setAgain(part, set);
        }
    }
}

/** Sets what a place says; what is said already is not read out again.
 * @param {HTMLElement} place @param {string} text */
export function say(place, text) {
    if (place.textContent !== text) {
        place.textContent = text;
    }
}

/** A table that is folded away.
 * @param {Table} table */
export const foldedTable = table => element("details", {},
    element("summary", {}, `Table: ${table.caption}`), tableElement(table));
