// The map of what stakes are worth over two prices at the settlement.
import {label, picture, rounded, scale, svg, ticks} from "./svg.mjs";
import {heldOf, worth} from "./stakes.mjs";
import {near} from "./seen.mjs";
import {tableOf} from "./steps.mjs";

/** @typedef {import("./stakes.mjs").Heap} Heap */

const CELLS = 20;
const LOSSES = ["#fdd0a2", "#fdae6b", "#f16913", "#a63603"];
const GAINS = ["#c6dbef", "#6baed6", "#2171b5", "#08306b"];
const NOTHING = "#ffffff";

/** What a heap is worth at two prices: rounded, and so for drawing alone.
 * @param {Heap} heap
 * @returns {(right: number, up: number) => number} */
export function drawnWorth({stakes}) {
    const {paid, options} = heldOf(stakes);
    const less = near(paid);
    const many = options.map(({form, count}) => ({form: form.map(Number), count: near(count)}));
    return (right, up) => many.reduce((sum, {form: [strike, first, second], count}) =>
        sum + count * Math.max(0, strike + first * right + second * up), -less);
}

/** A shade by how great a worth is beside the greatest.
 * @param {number} value @param {number} most */
function shade(value, most) {
    const shades = value < 0 ? LOSSES : GAINS;
    const at = Math.ceil(Math.abs(value) / most * shades.length - 1e-9) - 1;
    return Math.abs(value) <= 1e-9 * most ? NOTHING : shades[Math.max(0, at)];
}

/** @param {Heap} heap @param {[number, number]} reach @param {number} width
 * @returns {SVGElement} */
export function drawWorth(heap, reach, width) {
    const side = Math.min(width - 88, 330);
    const box = {left: 66, right: 66 + side, top: 62, bottom: 62 + side};
    const x = scale([0, reach[0]], [box.left, box.right]);
    const y = scale([0, reach[1]], [box.bottom, box.top]);
    const places = Array.from({length: CELLS}, (_, at) => at);
    const worthAt = drawnWorth(heap);
    const cells = places.flatMap(row => places.map(column => ({row, column, value: worthAt(
        (column + 0.5) / CELLS * reach[0], (row + 0.5) / CELLS * reach[1])})));
    const values = cells.map(cell => cell.value);
    const [least, greatest] = [Math.min(...values), Math.max(...values)];
    const most = Math.max(-least, greatest) || 1;
    const size = side / CELLS;
    return picture(box.right + 22, box.bottom + 54, `${heap.told}, over two prices`,
        ...[...LOSSES].reverse().concat(NOTHING, GAINS).map((fill, at) =>
            svg("rect", {x: 12 + at * 16, y: 8, width: 16, height: 14, fill})),
        label(166, 20, `from ${rounded(least)} to ${rounded(greatest)}`),
        ...cells.map(({row, column, value}) => svg("rect", {x: box.left + column * size,
            y: box.bottom - (row + 1) * size, width: size + 0.5, height: size + 0.5,
            fill: shade(value, most)})),
        ...ticks(0, reach[0], 4).map(price =>
            label(x(price), box.bottom + 20, rounded(price), {"text-anchor": "middle"})),
        ...ticks(0, reach[1], 4).map(price =>
            label(box.left - 8, y(price) + 4, rounded(price), {"text-anchor": "end"})),
        label(box.right, box.bottom + 40, "price of S1", {"text-anchor": "end", class: "soft"}),
        label(box.left - 8, box.top - 12, "price of S2", {"text-anchor": "middle",
            class: "soft"}));
}

/** The same in a few steps of each price.
 * @param {Heap} heap @param {[number, number]} reach */
export function worthMapTable(heap, reach) {
    const [first, second] = reach.map(greatest =>
        [0, 1, 2, 3, 4].map(step => Math.round(greatest * step / 4)));
    const held = heldOf(heap.stakes);
    const rows = second.reverse().map(up => [`S2 = ${up}`,
        ...first.map(right => `${worth(held, [1n, BigInt(right), BigInt(up)])}`)]);
    return tableOf(`${heap.told}, over the prices of S1 and S2`,
        ["", ...first.map(price => `S1 = ${price}`)], rows);
}
