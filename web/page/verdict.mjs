// The verdict on a batch: conditions in their order, each shown with its sums. The first that
// fails, or a sum that does not fit, decides.
import {LIMIT, ONE, Sums, Wide, ZERO, isAboveZero, isAtMost, isBelowZero, isSame, whole}
    from "./fractions.mjs";
import {NO_TABLE, holdsWord, tableOf} from "./steps.mjs";
import {bundleWords, sideWord, stateText, stateWords} from "./words.mjs";
import {coverKind, matchHolds} from "./covers.mjs";
import {pays, signed} from "./batch.mjs";

/** @typedef {import("./batch.mjs").Batch} Batch */
/** @typedef {import("./batch.mjs").Order} Order */
/** @typedef {import("./batch.mjs").Point} Point */
/** @typedef {import("./fractions.mjs").Fraction} Fraction */
/** @typedef {import("./steps.mjs").Step} Step */
/** @typedef {[what: string, here: string, holds: boolean]} Demand */

/** The most nodes times legs of a tree in a line marked bounded. */
const MOST_WALKED = 2000000;

/** What must be so of the lengths of a batch's lists.
 * @param {Batch} batch
 * @returns {Demand[]} */
function demands(batch) {
    const {certificate, fills, mark, orders, underlyings} = batch;
    const forms = orders.flatMap(order => order.legs.map(leg => leg.form));
    const states = certificate === null ? [] : certificate.measure.map(point => point.state);
    const kind = certificate === null ? null : coverKind(certificate.cover);
    return [
        ["as many fills as orders", `${fills.length} for ${orders.length}`,
            fills.length === orders.length],
        ["a cover for so many underlyings", `${kind === null ? "none" : kind.word}, ${underlyings}`,
            kind === null || certificate === null
                || kind.fits(underlyings, batch, certificate.cover)],
        entriesDemand("form", forms, underlyings),
        entriesDemand("state of the measure", states, underlyings),
        ...mark === "bounded" ? walkedDemands(certificate?.cover, forms.length) : [],
    ];
}

/** @param {import("./batch.mjs").Cover | undefined} cover @param {number} legs
 * @returns {Demand[]} */
function walkedDemands(cover, legs) {
    if (!Array.isArray(cover)) {
        return [];
    }
    const walked = cover.length * legs;
    return [["at most 2,000,000 nodes of a tree times legs", `${walked}`, walked <= MOST_WALKED]];
}

/** @param {string} of @param {bigint[][]} lists @param {number} underlyings
 * @returns {Demand} */
function entriesDemand(of, lists, underlyings) {
    const lengths = [...new Set(lists.map(list => list.length))];
    return [`in each ${of} one entry more than underlyings`,
        `${lengths.join(" and ") || "none"}, ${underlyings}`,
        lengths.every(length => length === underlyings + 1)];
}

/** @param {Batch} batch
 * @returns {Step} */
function shapeStep(batch) {
    const list = demands(batch);
    const wrong = list.find(([, , holds]) => !holds);
    return {
        condition: "BatchShape",
        title: "The parts fit together",
        holds: wrong === undefined,
        says: wrong === undefined ? "" : `Asked is: ${wrong[0]}. Here: ${wrong[1]}.`,
        table: tableOf("Lengths", ["asked is", "here", ""],
            list.map(([what, here, holds]) => [what, here, holdsWord(holds)])),
    };
}

/** @param {Batch} batch
 * @returns {Step} */
function fillStep({fills, orders}) {
    const holds = orders.map((order, at) =>
        !isBelowZero(fills[at]) && isAtMost(fills[at], order.quantity));
    const wrong = holds.indexOf(false);
    const rows = orders.map((order, at) =>
        [`${order.number}`, `${fills[at]}`, `${order.quantity}`, holdsWord(holds[at])]);
    return {
        condition: "Fill",
        title: "No fill is below 0 or above its quantity",
        holds: wrong < 0,
        says: wrong < 0 ? "" : `Order ${rows[wrong][0]} is filled by ${fills[wrong]}.`,
        table: tableOf("Fills and quantities", ["order", "fill", "quantity", ""], rows),
    };
}

/** @param {Sums} sums @param {Batch} batch
 * @returns {Step} */
function premiumStep(sums, {orders, fills, liability, surplus}) {
    let premium = ZERO;
    const rows = orders.map((order, at) => {
        const part = signed(order, sums.times(fills[at], order.price));
        premium = sums.add(premium, part);
        return [`${order.number}`, sideWord(order), `${fills[at]}`, `${order.price}`, `${part}`];
    });
    const left = sums.less(premium, liability);
    const belowZero = isBelowZero(surplus) ? ", which is below 0" : "";
    rows.push(["premium", "", "", "", `${premium}`], ["liability", "", "", "", `${liability}`],
        ["what is left", "", "", "", `${left}`]);
    return {
        condition: "Cover",
        title: "The premium less the liability is the surplus, and not below 0",
        holds: isSame(left, surplus) && !isBelowZero(surplus),
        says: `What is left is ${left}, and the line says ${surplus}${belowZero}.`,
        table: tableOf("The premium: fill · price, with a minus for a sell",
            ["order", "side", "fill", "price", "fill · price"], rows),
    };
}

/** @param {Sums} sums @param {Batch} batch
 * @returns {Step} */
function coverStep(sums, batch) {
    const {certificate} = batch;
    const holds = certificate === null ? matchHolds : coverKind(certificate.cover).sums;
    return {
        condition: "Cover",
        title: "At no settlement the house owes more than the liability",
        ...holds(sums, batch),
    };
}

/** @param {Sums} sums @param {Point[]} measure
 * @returns {Step} */
function measureStep(sums, measure) {
    const wrong = measure.find(point => isBelowZero(point.weight));
    let mass = ZERO;
    const rows = measure.map(({state, weight}) => {
        const part = wrong === undefined ? sums.times(weight, whole(state[0])) : ZERO;
        mass = sums.add(mass, part);
        return [stateWords(state), stateText(state), `${weight}`, `${part}`];
    });
    return {
        condition: "Measure",
        title: "The certificate's prices are those of a measure",
        holds: wrong === undefined && isSame(mass, ONE),
        says: wrong === undefined ? `The sum of weight · t is ${mass}, and it must be 1.`
            : `The weight ${wrong.weight} is below 0.`,
        table: tableOf("The measure", ["at", "state", "weight", "weight · t"],
            wrong === undefined ? [...rows, ["sum", "", "", `${mass}`]] : rows),
    };
}

/** The price of an order's bundle.
 * @param {Sums} sums @param {Order} order @param {Point[]} measure */
function priceOf(sums, order, measure) {
    let price = ZERO;
    for (const {state, weight} of measure) {
        price = sums.add(price, sums.times(weight, pays(sums, order, state)));
    }
    return price;
}

/** How much better an order's limit is than its price, where it is.
 * @param {Sums} sums @param {Order} order @param {Fraction} price */
function gainOf(sums, order, price) {
    const gain = order.isBuy ? sums.less(order.price, price) : sums.less(price, order.price);
    return isAboveZero(gain) ? gain : ZERO;
}

/** @param {Sums} sums @param {Batch} batch @param {Point[]} measure
 * @returns {Step} */
function boundStep(sums, {bound, orders, surplus}, measure) {
    let total = ZERO;
    const rows = orders.map(order => {
        const price = priceOf(sums, order, measure);
        const gain = gainOf(sums, order, price);
        const part = sums.times(order.quantity, gain);
        total = sums.add(total, part);
        return [`${order.number}`, sideWord(order), bundleWords(order), `${order.price}`,
            `${price}`, `${gain}`, `${part}`];
    });
    const said = bound === null ? surplus : bound;
    return {
        condition: "Bound",
        title: `The bound of the measure is the ${bound === null ? "surplus" : "one of the line"}`,
        holds: isSame(total, said),
        says: `No fills leave more than ${total}, and the line says ${said}.`,
        table: tableOf("The bound: quantity · gain over all orders",
            ["order", "side", "bundle", "limit", "price", "gain", "quantity · gain"],
            [...rows, ["bound", "", "", "", "", "", `${total}`]]),
    };
}

/** The conditions in their order.
 * @param {Sums} sums @param {Batch} batch
 * @returns {Generator<Step>} */
function* conditions(sums, batch) {
    yield shapeStep(batch);
    yield fillStep(batch);
    yield premiumStep(sums, batch);
    yield coverStep(sums, batch);
    if (batch.certificate !== null) {
        yield measureStep(sums, batch.certificate.measure);
        yield boundStep(sums, batch, batch.certificate.measure);
    }
}

/** @param {Wide} wide
 * @returns {Step} */
const wideStep = wide => ({
    condition: "Wide",
    title: "A sum does not fit",
    holds: false,
    says: `On the way of ${wide.message} a number is above 2^127 − 1 in size.`,
    table: NO_TABLE,
});

/** The steps up to the first that does not hold. A limit of null is none.
 * @param {Batch} batch @param {bigint | null} [limit]
 * @returns {Step[]} */
export function judge(batch, limit = LIMIT) {
    /** @type {Step[]} */
    const steps = [];
    try {
        for (const step of conditions(new Sums(limit), batch)) {
            steps.push(step);
            if (!step.holds) {
                break;
            }
        }
    } catch (fault) {
        if (!(fault instanceof Wide)) {
            throw fault;
        }
        steps.push(wideStep(fault));
    }
    return steps;
}
