// The picture of stakes over one price at the settlement, with the other prices set by hand.
import {curvesOf, reach, worthTable} from "./stakes.mjs";
import {drawWorth, worthMapTable} from "./worth_map.mjs";
import {element, foldedTable, renew} from "./tables.mjs";
import {label, line, picture, rounded, scale, svg, ticks} from "./svg.mjs";
import {field, numberInput} from "./forms.mjs";
import {underlying} from "./words.mjs";

/** @typedef {import("./stakes.mjs").Heap} Heap */
/** @typedef {{told: string, kind: string, points: [number, number][]}} Curve */
/** @typedef {(value: number) => number} Scale */

const HEIGHT = 300;
const ROW = 22;

/** @param {Curve[]} curves
 * @returns {[number, number]} */
function span(curves) {
    const values = [0, ...curves.flatMap(curve => curve.points.map(point => point[1]))];
    const [least, greatest] = [Math.min(...values), Math.max(...values)];
    const more = (greatest - least) * 0.08 || 1;
    return [least - more, greatest + more];
}

/** @param {Curve} curve @param {Scale} x @param {Scale} y */
const drawn = ({kind, points}, x, y) => svg("polyline", {
    points: points.map(([price, value]) => `${x(price)},${y(value)}`).join(" "),
    class: kind,
    "data-part": kind,
});

/** @param {Curve[]} curves @param {number} greatest @param {string} name @param {number} width */
function draw(curves, greatest, name, width) {
    const top = 12 + ROW * curves.length;
    const box = {left: 62, right: width - 16, top, bottom: HEIGHT - 44};
    const values = span(curves);
    const [x, y] = [scale([0, greatest], [box.left, box.right]),
        scale(values, [box.bottom, box.top])];
    const prices = ticks(0, greatest, Math.max(3, (box.right - box.left) / 90));
    return picture(width, HEIGHT, `Worth over the price of ${name} at the settlement`,
        ...curves.flatMap(({told, kind}, row) => [
            line([12, 14 + ROW * row], [38, 14 + ROW * row], kind),
            label(46, 18 + ROW * row, told)]),
        ...ticks(values[0], values[1], 5).flatMap(value => [
            line([box.left, y(value)], [box.right, y(value)], "grid"),
            label(box.left - 7, y(value) + 4, rounded(value), {"text-anchor": "end"})]),
        line([box.left, y(0)], [box.right, y(0)], "axis"),
        ...prices.map(price =>
            label(x(price), box.bottom + 17, rounded(price), {"text-anchor": "middle"})),
        label(box.right, box.bottom + 34, `price of ${name} at the settlement`,
            {"text-anchor": "end", class: "soft"}),
        ...curves.map(curve => drawn(curve, x, y)));
}

/** A picture with its table; on several underlyings one of them is the axis. */
export class WorthPicture {
    /** @param {string} caption */
    constructor(caption) {
        this.caption = caption;
        this.place = element("div", {class: "worth"});
        this.settings = element("div", {class: "fields"});
        this.drawing = element("div");
        this.place.append(this.settings, this.drawing);
        this.axis = 0;
        /** @type {number[]} */
        this.prices = [];
        this.hasStakes = false;
        /** @type {Heap[]} */
        this.heaps = [];
    }

    /** @param {Heap[]} heaps @param {number} count of underlyings */
    show(heaps, count) {
        this.heaps = heaps;
        const strikes = heaps.flatMap(heap => heap.stakes)
            .flatMap(stake => stake.legs.map(leg => Math.abs(Number(leg.form[0]))));
        const isFirst = !this.hasStakes && strikes.length > 0;
        if (count !== this.prices.length || isFirst) {
            const middle = Math.round(Math.max(10, ...strikes) / count);
            this.axis = 0;
            this.hasStakes = strikes.length > 0;
            this.prices = Array.from({length: count}, () => middle);
            this.set();
        }
        this.redraw();
    }

    set() {
        const names = this.prices.map((_, at) => underlying(at, this.prices.length));
        const axis = element("select", {},
            ...names.map((name, at) => element("option", {value: `${at}`}, name)));
        axis.addEventListener("change", () => {
            this.axis = axis instanceof HTMLSelectElement ? Number(axis.value) : 0;
            this.redraw();
        });
        const others = names.map((name, at) => {
            const input = numberInput(`${this.prices[at]}`, () => {
                this.prices[at] = Math.max(0, Math.round(Number(input.value) || 0));
                this.redraw();
            });
            return field(`${name} at`, input);
        });
        this.settings.replaceChildren(
            ...(names.length === 1 ? [] : [field("Over the price of", axis), ...others]));
    }

    redraw() {
        const {heaps, axis, prices} = this;
        const greatest = reach(heaps.flatMap(heap => heap.stakes), axis, prices);
        const width = Math.max(280, Math.min(this.place.clientWidth || 560, 620));
        const name = underlying(axis, prices.length);
        const curves = curvesOf(heaps, axis, prices, greatest);
        renew(this.drawing, draw(curves, greatest, name, width),
            foldedTable(worthTable(this.caption, heaps, axis, prices, greatest)),
            ...(prices.length === 2 ? this.map(width) : []));
    }

    /** The last heap over both prices.
     * @param {number} width */
    map(width) {
        const {heaps, prices} = this;
        const [heap] = heaps.slice(-1);
        /** @type {[number, number]} */
        const far = [reach(heap.stakes, 0, prices), reach(heap.stakes, 1, prices)];
        return [drawWorth(heap, far, width), foldedTable(worthMapTable(heap, far))];
    }
}
