// The picture over one price: what the house keeps, the surplus below it, and the measure.
import {label, line, picture, rounded, scale, svg, ticks} from "./svg.mjs";

/** @typedef {import("./seen.mjs").Spot} Spot */
/** @typedef {{name: string, greatest: number, points: [number, number][], surplus: number,
 *     bound: number | null, spots: Spot[], axis: number, at: [number, number]}} Curve
 * points of the curve by rising price; at is the settlement that is looked at */
/** @typedef {(value: number) => number} Scale */
/** @typedef {{left: number, right: number, top: number, bottom: number}} Box */

const LEGEND = 22;
// At the foot of the plot the bars of the measure stand.
const STRIP = 46;

/** Least and greatest value that are shown.
 * @param {Curve} curve
 * @returns {[number, number]} */
function span({points, surplus, bound}) {
    const levels = bound === null ? [0, surplus] : [0, surplus, bound];
    const values = [...levels, ...points.map(point => point[1])];
    const [least, greatest] = [Math.min(...values), Math.max(...values)];
    const more = (greatest - least) * 0.08 || 1;
    return [least - more, greatest + more];
}

/** @param {Curve} curve @param {Box} box @param {Scale} x @param {Scale} y */
function axes({name, greatest}, box, x, y) {
    const [low, high] = [y(0), x(greatest)];
    const prices = ticks(0, greatest, Math.max(3, (box.right - box.left) / 90));
    return [
        ...prices.map(price => label(x(price), box.bottom + 17, rounded(price),
            {"text-anchor": "middle"})),
        line([box.left, low], [high, low], "axis"),
        line([box.left, box.top], [box.left, box.bottom], "axis"),
        label(box.right, box.bottom + 34, `price of ${name} at the settlement`,
            {"text-anchor": "end", class: "soft"}),
    ];
}

/** @param {[number, number]} values @param {Box} box @param {Scale} y */
const levels = (values, box, y) => ticks(values[0], values[1], 5).flatMap(value => [
    line([box.left, y(value)], [box.right, y(value)], "grid"),
    label(box.left - 7, y(value) + 4, rounded(value), {"text-anchor": "end"}),
]);

/** @param {Curve} curve @param {Scale} x @param {Scale} y */
function keptShape({points, surplus}, x, y) {
    const path = points.map(([price, value]) => `${x(price)},${y(value)}`).join(" ");
    const [first, last] = [points[0][0], points[points.length - 1][0]];
    const floor = `${x(last)},${y(surplus)} ${x(first)},${y(surplus)}`;
    return [
        svg("polygon", {points: `${path} ${floor}`, class: "above"}),
        svg("polyline", {points: path, class: "curve", "data-part": "curve"}),
    ];
}

/** The bars of the measure, each as high as its mass.
 * @param {Curve} curve @param {Box} box @param {Scale} x */
function bars({axis, greatest, spots}, box, x) {
    const settlements = spots.filter(spot => !spot.isRay && spot.prices[axis] <= greatest);
    const tallest = Math.max(...settlements.map(spot => Math.abs(spot.mass))) || 1;
    return settlements.map(spot => {
        const height = Math.max(2, Math.abs(spot.mass) / tallest * (STRIP - 6));
        const bar = svg("rect", {x: x(spot.prices[axis]) - 4, y: box.bottom - height, width: 8,
            height, class: "mass", "data-part": `state-${spot.place}`});
        bar.append(svg("title", {}, `state ${spot.place}: mass ${rounded(spot.mass)}`));
        return bar;
    });
}

/** @param {Curve} curve
 * @returns {[kind: string, told: string][]} */
function legendOf({surplus, bound, spots}) {
    const rays = spots.filter(spot => spot.isRay).map(spot => rounded(spot.mass)).join(", ");
    /** @type {[string, string][]} */
    const entries = [["curve", "kept of the premium"], ["surplus", `surplus ${rounded(surplus)}`]];
    if (bound !== null) {
        entries.push(["bound", `bound ${rounded(bound)}`]);
    }
    if (spots.length > 0) {
        entries.push(["mass", rays === "" ? "measure" : `measure, and beyond all prices ${rays}`]);
    }
    return entries;
}

/** The legend in as many rows as the width asks for, and its height.
 * @param {[string, string][]} entries @param {number} left @param {number} width */
function legend(entries, left, width) {
    let [x, y] = [left, 18];
    const parts = entries.flatMap(([kind, told]) => {
        const length = 44 + told.length * 7.2;
        if (x > left && x + length > width) {
            [x, y] = [left, y + LEGEND];
        }
        const sample = kind === "mass"
            ? svg("rect", {x: x + 9, y: y - 11, width: 8, height: 12, class: kind})
            : line([x, y - 5], [x + 26, y - 5], kind);
        const entry = [sample, label(x + 32, y, told)];
        x += length;
        return entry;
    });
    return {parts, height: y + 10};
}

/** @param {Curve} curve @param {number} width
 * @returns {SVGElement} */
export function drawCurve(curve, width) {
    const {name, greatest, surplus, bound, spots, at: [price, value]} = curve;
    const top = legend(legendOf(curve), 12, width - 12);
    const height = Math.round(Math.min(430, Math.max(300, width * 0.55)));
    const box = {left: 62, right: width - 16, top: top.height, bottom: height - 44};
    const values = span(curve);
    const x = scale([0, greatest], [box.left, box.right]);
    const y = scale(values, [box.bottom - (spots.length === 0 ? 0 : STRIP), box.top]);
    const level = (/** @type {number} */ told, /** @type {string} */ kind) =>
        line([box.left, y(told)], [box.right, y(told)], kind);
    return picture(width, height, `What the house keeps over the price of ${name}`,
        ...top.parts, ...levels(values, box, y), ...keptShape(curve, x, y),
        ...axes(curve, box, x, y), level(surplus, "surplus"),
        ...(bound === null ? [] : [level(bound, "bound")]), ...bars(curve, box, x),
        line([x(price), box.top], [x(price), box.bottom], "here"),
        svg("circle", {cx: x(price), cy: y(value), r: 5, class: "spot"}));
}
