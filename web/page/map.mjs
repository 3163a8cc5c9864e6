// The picture over two prices: a map of what the house keeps, with the points of the measure.
import {label, line, picture, rounded, scale, svg, ticks} from "./svg.mjs";

/** @typedef {import("./seen.mjs").Seen} Seen */
/** @typedef {import("./seen.mjs").Spot} Spot */
/** @typedef {(value: number) => number} Scale */
/** @typedef {{left: number, right: number, top: number, bottom: number}} Box */

const CELLS = 40;
// One hue from light to dark, so that it is read without colours too.
const SHADES = [
    "#f7fbff", "#deebf7", "#c6dbef", "#9ecae1", "#6baed6", "#4292c6", "#2171b5", "#084594",
];

/** What is kept above the surplus in the middle of each cell.
 * @param {Seen} seen @param {[number, number]} reach */
function cellsOf(seen, reach) {
    const least = 1e-9 * seen.size();
    const middles = Array.from({length: CELLS}, (_, at) => (at + 0.5) / CELLS);
    return middles.flatMap((up, row) => middles.map((right, column) => ({
        row,
        column,
        more: seen.keptAt([right * reach[0], up * reach[1]]) - seen.surplus,
    })).map(cell => ({...cell, more: cell.more < least ? 0 : cell.more})));
}

/** @param {{row: number, column: number, more: number}[]} cells @param {Box} box */
function shading(cells, box) {
    const most = Math.max(...cells.map(cell => cell.more)) || 1;
    const [width, height] = [(box.right - box.left) / CELLS, (box.bottom - box.top) / CELLS];
    return cells.map(({row, column, more}) => svg("rect", {
        x: box.left + column * width,
        y: box.bottom - (row + 1) * height,
        width: width + 0.5,
        height: height + 0.5,
        fill: SHADES[Math.ceil(more / most * (SHADES.length - 1) - 1e-9)],
    }));
}

/** A point of the measure with its number: a disc at a settlement, at the edge a ring for a ray.
 * @param {Spot} spot @param {[number, number]} reach @param {Scale} x @param {Scale} y */
function mark({place, prices, isRay}, reach, x, y) {
    const far = Math.max(prices[0] / reach[0], prices[1] / reach[1]);
    const beyond = isRay || far > 1 ? far : 1;
    const [cx, cy] = [x(prices[0] / beyond), y(prices[1] / beyond)];
    const kind = isRay ? "ray" : "point";
    return [
        svg("circle", {cx, cy, r: 10, class: kind, "data-part": `state-${place}`}),
        label(cx, cy + 4.5, `${place}`, {"text-anchor": "middle", class: `${kind}-name`}),
    ];
}

/** @param {[number, number]} reach @param {Box} box @param {Scale} x @param {Scale} y */
function axes(reach, box, x, y) {
    const count = Math.max(3, (box.right - box.left) / 80);
    return [
        ...ticks(0, reach[0], count).map(price =>
            label(x(price), box.bottom + 27, rounded(price), {"text-anchor": "middle"})),
        ...ticks(0, reach[1], count).map(price =>
            label(box.left - 14, y(price) + 4, rounded(price), {"text-anchor": "end"})),
        label(box.right, box.bottom + 44, "price of S1", {"text-anchor": "end", class: "soft"}),
        label(box.left - 14, box.top - 14, "price of S2", {"text-anchor": "middle", class: "soft"}),
    ];
}

/** @param {number} most @param {Seen} seen @param {number} y */
function legend(most, seen, y) {
    const samples = SHADES.map((fill, at) =>
        svg("rect", {x: 12 + at * 18, y, width: 18, height: 14, fill}));
    const [least, greatest] = [seen.surplus, seen.surplus + most].map(rounded);
    const told = least === greatest ? `kept: ${least}` : `kept: from ${least} to ${greatest}`;
    return [...samples, label(18 + SHADES.length * 18, y + 12, told)];
}

/** @param {Seen} seen @param {number[]} at the settlement that is looked at @param {number} width
 * @returns {SVGElement} */
export function drawMap(seen, at, width) {
    /** @type {[number, number]} */
    const reach = [seen.reach(0), seen.reach(1)];
    const side = Math.min(width - 88, 470);
    const box = {left: 66, right: 66 + side, top: 62, bottom: 62 + side};
    const x = scale([0, reach[0]], [box.left, box.right]);
    const y = scale([0, reach[1]], [box.bottom, box.top]);
    const cells = cellsOf(seen, reach);
    return picture(box.right + 22, box.bottom + 54, "What the house keeps over two prices",
        ...legend(Math.max(...cells.map(cell => cell.more)), seen, 8), ...shading(cells, box),
        ...axes(reach, box, x, y),
        line([x(at[0]), box.top], [x(at[0]), box.bottom], "here"),
        line([box.left, y(at[1])], [box.right, y(at[1])], "here"),
        svg("circle", {cx: x(at[0]), cy: y(at[1]), r: 5, class: "spot"}),
        ...seen.spots.flatMap(spot => mark(spot, reach, x, y)));
}
