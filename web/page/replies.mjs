// The reply lines that the exchange writes, by their word: which keys, of which kinds and ranges.
import {amount, at, between, demand, fraction, isJust, just, list, members, number, part, picked,
    share, told, truth, word} from "./kinds.mjs";
import {fractionOf, isAtMost, sizeOf} from "./fractions.mjs";
import {NumberText} from "./json_text.mjs";

/** @typedef {import("./json_text.mjs").Json} Json */
/** @typedef {import("./json_text.mjs").JsonObject} JsonObject */
/** @typedef {import("./kinds.mjs").Kind} Kind */
/** @typedef {{[key: string]: Kind}} Keys */
/** @typedef {{[word: string]: (members: JsonObject) => Keys}} Table */

/** @param {Json} value */
const wholeOf = value => value instanceof NumberText ? BigInt(value.text) : 0n;

/** The whole number at a key of an object.
 * @param {Json} value @param {string} key */
const wholeAt = (value, key) => value instanceof Map ? wholeOf(at(value, key)) : 0n;

// ---- numbers

const MILLION = 10n ** 6n;
const ANY = number(-(2n ** 63n), 2n ** 64n);
const LINE = number(1n, 2n ** 24n);
const MARKET = number(1n, 10n ** 9n - 1n);
const ACCOUNT = number(1n, 10n ** 9n - 1n);
const ORDER = number(1n, MILLION);
const BATCH = number(1n, 2n * MILLION);
const UNDERLYINGS = number(1n, 8n);
const UNITS = number(0n, 20000n);
const PLACE = number(1n, 1024n);
const QUANTITY = number(1n, MILLION);
const SESSION = number(1n, 10n ** 9n - 1n);
const MESSAGE = number(1n, MILLION);
const BALANCE = amount();
const SIDE = word("buy", "sell");

// ---- options, bundles and orders

/** A form within the limits of a call or put.
 * @param {Json[]} entries */
function isOption(entries) {
    const [strike, ...weights] = entries.map(wholeOf);
    return sizeOf(strike) <= 10n ** 9n && weights.some(weight => weight !== 0n)
        && weights.every(weight => sizeOf(weight) <= 1000n);
}

const FORM = between(2, 9, list(ANY, isOption));
const COUNT = number(-1000n, 1000n);
const LEG = members({count: COUNT, form: FORM}, leg => wholeAt(leg, "count") !== 0n);
const LEGS = between(1, 4, list(LEG));

/** Quantity times the sizes of the counts is at most a million.
 * @param {JsonObject} order */
function isFew(order) {
    const legs = at(order, "legs");
    const sizes = Array.isArray(legs) ? legs.map(leg => sizeOf(wholeAt(leg, "count"))) : [];
    return wholeAt(order, "quantity") * sizes.reduce((sum, size) => sum + size, 0n) <= MILLION;
}

/** @param {Json[]} orders */
const areFew = orders => orders.length <= 256;

/** The numbers of a book's orders rise.
 * @param {Json[]} orders */
const doRise = orders => areFew(orders) && orders.every((order, place) =>
    place === 0 || wholeAt(orders[place - 1], "order") < wholeAt(order, "order"));

const ABOUT = {account: ACCOUNT, order: ORDER, price: number(0n, 10n ** 12n), quantity: QUANTITY,
    side: SIDE};
const SINGLES = list(members({form: FORM, ...ABOUT}), areFew);
const BUNDLE = members({legs: LEGS, ...ABOUT}, isFew);
const BUNDLES = list(BUNDLE, areFew);

// ---- certificates

const LEAF = members({leaf: list(members({at: PLACE, by: fraction}))});
const SPLIT = members({split: PLACE});
const NODE = picked(node => node instanceof Map && node.has("leaf") ? LEAF : SPLIT);
const [TREE, SHORT_TREE] = [list(NODE), list(NODE, nodes => nodes.length <= 20000)];
const STATE = between(2, 9, list(amount(0n), entries => entries.some(entry => entry !== "0")));
const POINT = members({state: STATE, weight: fraction});
const [MEASURE, SHORT_MEASURE] = [list(POINT), list(POINT, points => points.length <= 1024)];

/** The classes of a list rise, be they all of it or every second.
 * @param {number} step
 * @returns {(items: Json[]) => boolean} */
const classesRise = step => items => items.every((item, place) => place < step || place % step !== 0
    || wholeOf(items[place - step]) < wholeOf(item));

/** @type {Kind} */
const PAIRS = (value, later) => {
    demand(Array.isArray(value) && value.length % 2 === 0, "Shape", "a class has no multiplier");
    value.forEach((item, place) => (place % 2 === 0 ? PLACE : fraction)(item, later));
    later.ranges.push(() => classesRise(2)(value));
};
const FULL = list(PLACE, classes => classes.length > 0 && classesRise(1)(classes));
const CELL_LEAF = members({leaf: PAIRS});
const FULL_LEAF = members({full: FULL, leaf: PAIRS});
const BOUND = members({bound: PLACE, minus: PAIRS, plus: PAIRS});

/** @param {Json} node */
function cellKind(node) {
    if (node instanceof Map && node.has("leaf")) {
        return node.has("full") ? FULL_LEAF : CELL_LEAF;
    }
    return node instanceof Map && node.has("bound") ? BOUND : SPLIT;
}

/** How many classes a node lists.
 * @param {Json} node */
function listed(node) {
    const length = (/** @type {string} */ key) => {
        const items = node instanceof Map ? node.get(key) : null;
        return Array.isArray(items) ? items.length : 0;
    };
    return length("full") + (length("leaf") + length("minus") + length("plus")) / 2;
}

const CELLS = members({cells: list(picked(cellKind), nodes => nodes.length <= 100000
    && nodes.reduce((sum, node) => sum + listed(node), 0) <= 1000000)});

/** Of a batch marked optimal: the cover is told by a word, or is a tree. */
const OPTIMAL_CERTIFICATE = members({
    cover: picked(cover => typeof cover === "string" ? word("line") : TREE),
    measure: MEASURE,
});

/** Of a batch marked bounded: it may be told by another word, or have cells, and is not long. */
const BOUNDED_CERTIFICATE = members({
    cover: picked(cover => {
        if (typeof cover === "string") {
            return word("line", "match");
        }
        return cover instanceof Map ? CELLS : SHORT_TREE;
    }),
    measure: SHORT_MEASURE,
});

const SOLVED = {batch: BATCH, fills: list(fraction), liability: fraction, market: MARKET,
    surplus: fraction, underlyings: UNDERLYINGS, units: UNITS};
const WIDE = members(
    {left: fraction, operator: word("add", "mul", "div", "whole"), right: fraction});
/** @type {{[mark: string]: Keys}} */
const MARKS = {optimal: {certificate: OPTIMAL_CERTIFICATE}, wide: {wide: WIDE}, budget: {}};

/** A cleared line of a run, by mark and version.
 * @param {JsonObject} reply
 * @returns {Keys} */
function cleared(reply) {
    const mark = reply.get("mark");
    demand(typeof mark === "string" && Object.keys(MARKS).includes(mark), "Shape", "no such mark");
    const version = isJust(reply.get("version"), 2) ? 2 : 1;
    return {...SOLVED, ...MARKS[mark], mark: word(mark), orders: version === 1 ? SINGLES : BUNDLES,
        version: just(version)};
}

/** @type {Keys} */
const BOUNDED = {...SOLVED, bound: fraction, certificate: BOUNDED_CERTIFICATE,
    mark: word("bounded"), orders: BUNDLES, run: word("wide", "budget"), version: just(3)};

// ---- refusals

const NEED = told(amount(0n), "positions", "unbounded", "wide", "budget", "sum");
const FAILED = word("BatchShape", "Fill", "Cover", "Measure", "Wide");
const EXPECTED = number(1n, MILLION + 1n);
const RUN_REASONS = ["Syntax", "NoAccount", "AccountExists", "NoMarket", "MarketExists", "Settled",
    "WeightCount", "Range", "Funds", "BookFull", "NoOrder", "NotOwner", "TooMany"];

/** The keys of refusals beside number and reason, by reason.
 * @type {{[reason: string]: Keys}} */
const BESIDE = {
    Range: {field: number(2n, 51n)},
    Margin: {need: NEED},
    Unproved: {failed: FAILED},
    Old: {session: SESSION, expected: EXPECTED},
    Ahead: {session: SESSION, expected: EXPECTED},
    Changed: {session: SESSION, expected: EXPECTED},
    Sessions: {session: SESSION},
};

/** The reasons by their numbers, from a first number on.
 * @param {number} first @param {string[]} reasons
 * @returns {[string, string][]} */
const numbered = (first, reasons) => reasons.map((reason, place) => [`${first + place}`, reason]);

const OF_RUN = new Map(numbered(1, RUN_REASONS));
const OF_SERVE = new Map(
    [...OF_RUN, ...numbered(14, ["Margin"]), ...numbered(20, ["Stale", "Unproved"]),
        ...numbered(23, ["Closed", "Open", "NotAllowed", "NotAsked", "Quota"])]);
const OF_GATE = new Map(numbered(15, ["Malformed", "Old", "Ahead", "Changed", "Sessions"]));

/** The keys of a refusal with one of these numbers.
 * @param {Map<string, string>} reasons
 * @returns {(reply: JsonObject) => Keys} */
const refusal = reasons => reply => {
    const given = reply.get("number");
    const reason = given instanceof NumberText ? reasons.get(given.text) : undefined;
    demand(reason !== undefined, "Shape", "no refusal has this number");
    return {number: ANY, reason: word(reason), ...BESIDE[reason]};
};

// ---- the tables

const PAYOUT = members({account: ACCOUNT, amount: amount(undefined, 8001n * 10n ** 15n),
    batch: BATCH, order: ORDER});

/** What `run` writes, and `check` reads.
 * @type {Table} */
export const RUN = {
    opened: () => ({account: ACCOUNT}),
    deposited: () => ({account: ACCOUNT, balance: BALANCE}),
    withdrawn: () => ({account: ACCOUNT, balance: BALANCE}),
    listed: () => ({market: MARKET, underlyings: UNDERLYINGS}),
    placed: () => ({order: ORDER}),
    cancelled: () => ({order: ORDER}),
    cleared,
    settled: () => ({lapsed: number(0n, 256n), market: MARKET, payouts: list(PAYOUT)}),
    balance: () => ({account: number(0n, 10n ** 9n - 1n), balance: BALANCE, reserved: amount(0n)}),
    refused: refusal(OF_RUN),
};

const PRICE = told(amount(0n, 10n ** 12n), "never", "unmarked");
const MARGIN = told(fraction, "unbounded", "wide", "budget");
const POSITION = members({batch: BATCH, fill: share, legs: LEGS, order: ORDER, side: SIDE});

/** A margin has the state that decides it, but where a word alone is told.
 * @param {JsonObject} reply
 * @returns {Keys} */
const stateOf = reply => ["wide", "budget"].includes(`${reply.get("margin")}`) ? {} : {at: STATE};

/** What `serve` writes beside.
 * @type {Table} */
const SERVE = {
    book: () => ({market: MARKET, orders: list(BUNDLE, doRise), underlyings: UNDERLYINGS}),
    positions: () => ({account: ACCOUNT, market: MARKET, positions: list(POSITION)}),
    proposed: () => ({best_surplus: fraction, bound: fraction, least_bound: fraction,
        market: MARKET, surplus: fraction}),
    closed: () => ({market: MARKET, orders: number(0n, 256n)}),
    reopened: () => ({market: MARKET}),
    secured: () => ({account: ACCOUNT, need: amount(0n)}),
    need: () => ({account: ACCOUNT, balance: BALANCE, need: NEED, secured: truth}),
    tried: () => ({fill: part, mark: word("optimal", "wide", "budget"), market: MARKET,
        surplus: part}),
    cleared: reply => isJust(reply.get("version"), 3) ? BOUNDED : cleared(reply),
    refused: refusal(OF_SERVE),
    quoted: () => ({ask: PRICE, bid: PRICE, market: MARKET}),
    priced: () => ({ask: PRICE, bid: PRICE, market: MARKET, quantity: QUANTITY}),
    margin: reply => ({account: ACCOUNT, margin: MARGIN, market: MARKET, ...stateOf(reply)}),
};

/** What `serve` writes, and `audit` reads.
 * @type {Table} */
export const SERVED = {...RUN, ...SERVE};

/** What refuses a message of a session.
 * @type {Table} */
export const GATES = {gate: refusal(OF_GATE)};

/** In an answer `proposed` 0, surplus, best surplus, least bound and bound do not fall.
 * @param {JsonObject} reply */
function areInOrder(reply) {
    const keys = ["surplus", "best_surplus", "least_bound", "bound"];
    const values = ["0", ...keys.map(key => `${at(reply, key)}`)].map(fractionOf);
    return values.every((value, place) => place === 0 || isAtMost(values[place - 1], value));
}

/** The kind of a reply of this table.
 * @param {Table} table
 * @returns {Kind} */
export const reply = table => picked(value => {
    demand(value instanceof Map, "Shape", "no object");
    const name = value.get("reply");
    demand(typeof name === "string" && Object.keys(table).includes(name), "Shape", "no such reply");
    const test = name === "proposed" ? areInOrder : undefined;
    return members({line: LINE, reply: word(name), ...table[name](value)}, test);
});

/** The numbers of a message and its session, beside the reply that is told. */
export const ANSWER = members({number: MESSAGE, of: () => undefined, session: SESSION});

/** The session of a question, beside the reply that is told. */
export const ASKED = members({of: () => undefined, reply: word("asked"), session: SESSION});
