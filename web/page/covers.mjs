// The covers: how a certificate shows that the net is within the liability at every state. One
// table has all kinds; each has its word, how its text is told, on how many underlyings it may
// stand, and the sums that decide.
import {areCells, cellsHold} from "./cells_cover.mjs";
import {ZERO, isAboveZero, whole} from "./fractions.mjs";
import {bendOf, net, signed} from "./batch.mjs";
import {bundleWords, stateText, stateWords} from "./words.mjs";
import {holdsWord, refuted, shown, tableOf} from "./steps.mjs";
import {treeHolds} from "./tree_cover.mjs";

/** @typedef {import("./batch.mjs").Batch} Batch */
/** @typedef {import("./batch.mjs").Cover} Cover */
/** @typedef {import("./batch.mjs").Order} Order */
/** @typedef {import("./batch.mjs").State} State */
/** @typedef {import("./fractions.mjs").Sums} Sums */
/** @typedef {import("./steps.mjs").Shown} Shown */
/** @typedef {{word: string, is: (cover: Cover) => boolean,
 *     fits: (underlyings: number, batch: Batch, cover: Cover) => boolean,
 *     sums: (sums: Sums, batch: Batch) => Shown}} CoverKind */

/** The states that decide all prices of one underlying: 0, each bend, and the slope beyond.
 * @param {Batch} batch
 * @returns {State[]} */
export function lineStates({orders}) {
    /** @type {Map<string, State>} */
    const states = new Map();
    const forms = orders.flatMap(order => order.legs.map(leg => leg.form));
    for (const state of [[1n, 0n], ...forms.map(bendOf), [0n, 1n]]) {
        if (state !== null && !states.has(`${state}`)) {
            states.set(`${state}`, state);
        }
    }
    return [...states.values()];
}

/** @param {Sums} sums @param {Batch} batch
 * @returns {Shown} */
function lineHolds(sums, batch) {
    const table = tableOf("The net at each price where a payoff bends",
        ["at", "state", "net", "liability · t", "net at most that"]);
    for (const state of lineStates(batch)) {
        const owed = net(sums, batch, state);
        const allowed = sums.times(batch.liability, whole(state[0]));
        const holds = !isAboveZero(sums.less(owed, allowed));
        table.rows.push([stateWords(state), stateText(state), `${owed}`, `${allowed}`,
            holdsWord(holds)]);
        if (!holds) {
            return refuted(`At ${stateWords(state)} the net ${owed} is above ${allowed}.`, table);
        }
    }
    return shown("Between these prices the net is straight, so it is nowhere above the liability.",
        table);
}

/** @param {Order} order */
const bundleKey = order => order.legs.map(({count, form}) => `${count}*${form}`).join(";");

/** As much bought as sold of each bundle, and no liability.
 * @param {Sums} sums @param {Batch} batch
 * @returns {Shown} */
export function matchHolds(sums, {orders, fills, liability}) {
    const table = tableOf("What is bought less what is sold of each bundle",
        ["bundle", "bought less sold", "is 0"]);
    if (liability.over !== 0n) {
        return refuted(`The liability is ${liability}, and not 0.`, table);
    }
    const keys = orders.map(bundleKey);
    for (const key of new Set(keys)) {
        let left = ZERO;
        orders.forEach((order, place) => {
            left = keys[place] === key ? sums.add(left, signed(order, fills[place])) : left;
        });
        const bundle = bundleWords(orders[keys.indexOf(key)]);
        const holds = left.over === 0n;
        table.rows.push([bundle, `${left}`, holdsWord(holds)]);
        if (!holds) {
            return refuted(`Of ${bundle} bought less sold is ${left}.`, table);
        }
    }
    return shown("Of each bundle as much is bought as sold, so nothing is owed at any settlement.",
        table);
}

/** @type {CoverKind[]} */
export const COVERS = [
    {word: "line", is: cover => cover === "line", fits: count => count === 1, sums: lineHolds},
    {word: "match", is: cover => cover === "match", fits: () => true, sums: matchHolds},
    {word: "tree", is: Array.isArray, fits: count => count > 1, sums: treeHolds},
    {
        word: "cells",
        is: cover => typeof cover === "object" && "cells" in cover,
        fits: (_, batch, cover) =>
            typeof cover === "object" && "cells" in cover && areCells(batch, cover.cells),
        sums: cellsHold,
    },
];

/** The kind of a cover.
 * @param {Cover} cover */
export function coverKind(cover) {
    const kind = COVERS.find(each => each.is(cover));
    if (kind === undefined) {
        throw new Error("no such cover");
    }
    return kind;
}
