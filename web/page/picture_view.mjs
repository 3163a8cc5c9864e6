// The picture of a batch with its sliders: over one price a curve, over two a map, and over more a
// curve along one of them while the others stand still.
import {Seen} from "./seen.mjs";
import {curveTable, keptWords, mapTable, measureTable, settlement} from "./batch_tables.mjs";
import {drawCurve} from "./curve.mjs";
import {drawMap} from "./map.mjs";
import {element, foldedTable} from "./tables.mjs";
import {underlying} from "./words.mjs";

/** @typedef {import("./batch.mjs").Batch} Batch */

/** @param {string} id */
function place(id) {
    const found = document.getElementById(id);
    if (found === null) {
        throw new Error(`the page has no ${id}`);
    }
    return found;
}

const ONE = "The curve is the premium less what the house owes. Where the cover holds it never "
    + "falls below the surplus.";
const TWO = "The darker, the more is kept. The numbers are points of the measure; a ring at the "
    + "edge is a ray, for prices beyond all bounds.";
const MORE = `${ONE} The other prices are those of the sliders. A bar stands for a point of the `
    + "measure, whatever its other prices.";
const UNMEASURED = "The line has no measure, since it does not claim the greatest surplus.";

/** A number field's value within its range.
 * @param {string} value @param {number} greatest */
const within = (value, greatest) =>
    Math.min(greatest, Math.max(0, Math.round(Number(value)) || 0));

export class PictureView {
    constructor() {
        /** @type {Batch | null} */
        this.batch = null;
        /** @type {Seen | null} */
        this.seen = null;
        /** @type {number[]} */
        this.prices = [];
        this.axis = 0;
        this.width = 0;
        new ResizeObserver(() => this.fit()).observe(place("drawing"));
    }

    /** @param {Batch} batch */
    show(batch) {
        this.batch = batch;
        this.seen = new Seen(batch);
        this.axis = 0;
        this.prices = this.start(this.seen);
        place("sliders").replaceChildren(
            ...this.axisChoice(), ...this.prices.map((_, at) => this.slider(at)));
        this.draw();
    }

    /** The settlement that is looked at first: a point of the measure, or half of each reach.
     * @param {Seen} seen */
    start(seen) {
        const settlements = seen.spots.filter(spot => !spot.isRay);
        const last = settlements[settlements.length - 1];
        const reaches = Array.from({length: seen.underlyings}, (_, at) => seen.reach(at));
        return reaches.map((reach, at) =>
            Math.round(last === undefined ? reach / 2 : Math.min(reach, last.prices[at])));
    }

    fit() {
        const width = place("drawing").clientWidth;
        if (width !== this.width) {
            this.width = width;
            this.draw();
        }
    }

    draw() {
        const {batch, seen} = this;
        this.width = place("drawing").clientWidth;
        if (batch !== null && seen !== null && this.width > 0) {
            place("drawing").replaceChildren(this.drawn(seen));
            place("picture-says").textContent = this.says(batch);
            place("kept").textContent = keptWords(batch, settlement(this.prices));
            this.tables(batch, seen);
        }
    }

    /** @param {Seen} seen */
    drawn(seen) {
        const {axis, prices, width} = this;
        if (seen.underlyings === 2) {
            return drawMap(seen, prices, width);
        }
        const along = (/** @type {number} */ price) =>
            seen.keptAt(prices.map((each, at) => at === axis ? price : each));
        return drawCurve({
            name: underlying(axis, seen.underlyings),
            greatest: seen.reach(axis),
            points: seen.bendsAlong(axis, prices).map(price => [price, along(price)]),
            surplus: seen.surplus,
            bound: seen.bound,
            spots: seen.spots,
            axis,
            at: [prices[axis], along(prices[axis])],
        }, width);
    }

    /** @param {Batch} batch */
    says({certificate, underlyings}) {
        const told = underlyings === 1 ? ONE : underlyings === 2 ? TWO : MORE;
        return certificate === null ? `${told} ${UNMEASURED}` : told;
    }

    /** @param {Batch} batch @param {Seen} seen */
    tables(batch, seen) {
        const before = [...place("picture-tables").querySelectorAll("details")];
        const open = before.map(details => details.open);
        const kept = seen.underlyings === 2
            ? mapTable(batch, [seen.reach(0), seen.reach(1)])
            : curveTable(batch, this.axis, this.prices, seen.reach(this.axis));
        const measure = batch.certificate === null ? [] : [measureTable(batch)];
        const folded = [kept, ...measure].map(foldedTable);
        folded.forEach((details, at) => details.toggleAttribute("open", open[at] || false));
        place("picture-tables").replaceChildren(...folded);
    }

    // ---- sliders

    axisChoice() {
        if (this.prices.length < 3) {
            return [];
        }
        const names = this.prices.map((_, at) => underlying(at, this.prices.length));
        const select = element("select", {id: "axis"},
            ...names.map((name, at) => element("option", {value: `${at}`}, name)));
        select.addEventListener("change", () => {
            this.axis = select instanceof HTMLSelectElement ? Number(select.value) : 0;
            this.draw();
        });
        const label = element("label", {for: "axis"}, "Curve along");
        return [element("p", {class: "row"}, label, select)];
    }

    /** A slider and a field for one price, which follow one another.
     * @param {number} at */
    slider(at) {
        const greatest = this.seen === null ? 0 : this.seen.reach(at);
        const name = underlying(at, this.prices.length);
        const bounds = {min: "0", max: `${greatest}`, step: "1", value: `${this.prices[at]}`};
        const told = {"aria-label": `price of ${name}`, ...bounds};
        const inputs = ["range", "number"].map(type => /** @type {HTMLInputElement} */ (
            element("input", {type, id: `price-${at}-${type}`, ...told})));
        inputs.forEach(input => input.addEventListener("input", () => {
            this.prices[at] = within(input.value, greatest);
            inputs.filter(other => other !== input).forEach(other => {
                other.value = `${this.prices[at]}`;
            });
            this.draw();
        }));
        return element("div", {class: "slider"}, element("span", {}, name), ...inputs);
    }
}
