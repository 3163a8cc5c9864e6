// What pictures are made of.

const SPACE = "http://www.w3.org/2000/svg";

/** An element of a picture with these attributes and parts.
 * @param {string} name @param {{[name: string]: string | number}} [attributes]
 * @param {(Node | string)[]} parts
 * @returns {SVGElement} */
export function svg(name, attributes = {}, ...parts) {
    const element = document.createElementNS(SPACE, name);
    Object.entries(attributes).forEach(([key, value]) => element.setAttribute(key, `${value}`));
    element.append(...parts);
    return element;
}

/** A whole picture, told by its title to those who do not see it.
 * @param {number} width @param {number} height @param {string} title @param {Node[]} parts */
export const picture = (width, height, title, ...parts) => svg("svg",
    {width, height, viewBox: `0 0 ${width} ${height}`, role: "img", "aria-label": title}, ...parts);

/** @param {number} x @param {number} y @param {string} told
 * @param {{[name: string]: string | number}} [more] */
export const label = (x, y, told, more = {}) => svg("text", {x, y, ...more}, told);

/** @param {[number, number]} from @param {[number, number]} to @param {string} kind */
export const line = ([x1, y1], [x2, y2], kind) => svg("line", {x1, y1, x2, y2, class: kind});

/** A number for an axis or a legend.
 * @param {number} value */
export function rounded(value) {
    const size = Math.abs(value);
    if (size !== 0 && (size >= 1e7 || size < 1e-3)) {
        return value.toExponential(1).replace("e+", "e").replace("-", "−");
    }
    return `${Number(value.toPrecision(4))}`.replace("-", "−");
}

/** Round numbers within a range, about so many.
 * @param {number} least @param {number} greatest @param {number} count */
export function ticks(least, greatest, count) {
    const rough = (greatest - least) / count;
    const power = 10 ** Math.floor(Math.log10(rough));
    const step = [1, 2, 5, 10].map(each => each * power).find(each => each >= rough) || 10 * power;
    const first = Math.ceil(least / step - 1e-9);
    const last = Math.floor(greatest / step + 1e-9);
    return Array.from({length: last - first + 1}, (_, place) => (first + place) * step);
}

/** From values to places in a picture.
 * @param {[number, number]} values @param {[number, number]} places */
export function scale([least, greatest], [from, to]) {
    const span = greatest - least;
    return (/** @type {number} */ value) => from + (value - least) / span * (to - from);
}
