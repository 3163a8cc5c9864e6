// The picture of depth: how much of a large order would be filled at each limit.
import {fractionOf} from "./fractions.mjs";
import {label, picture, rounded, svg} from "./svg.mjs";
import {near} from "./seen.mjs";

/** @typedef {{side: string, price: number, fill: string}} Depth a limit, and its fill */

const ROW = 24;
const LEFT = 116;

/** @param {Depth[]} rows @param {number} width
 * @returns {SVGElement} */
export function drawDepth(rows, width) {
    const fills = rows.map(({fill}) => near(fractionOf(fill)));
    const most = Math.max(...fills) || 1;
    const room = width - LEFT - 70;
    return picture(width, ROW * rows.length + 6, "What would be filled at each limit",
        ...rows.flatMap(({side, price}, at) => {
            const y = 3 + ROW * at;
            const length = Math.max(1, fills[at] / most * room);
            return [
                label(LEFT - 10, y + 16, `${side} at ${price}`, {"text-anchor": "end"}),
                svg("rect", {x: LEFT, y: y + 3, width: length, height: ROW - 7,
                    class: `depth-${side}`, "data-part": `${side}-${price}`}),
                label(LEFT + length + 8, y + 16, rounded(fills[at])),
            ];
        }));
}
