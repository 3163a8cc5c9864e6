// What a refusal of the exchange means, in words.

/** @typedef {import("./gateway.mjs").Told} Told */

/** @type {{[reason: string]: string}} */
const SAID = {
    Syntax: "the exchange takes no such line",
    Range: "a number is outside its range",
    NoAccount: "the account is not open",
    AccountExists: "this account was opened already",
    NoMarket: "there is no such market",
    MarketExists: "there is this market already",
    Settled: "the market is settled",
    WeightCount: "weights or prices are not as many as underlyings",
    Funds: "the account has too little that is free",
    BookFull: "the market has 256 live orders, and takes more when it is cleared",
    NoOrder: "no live order has this number",
    NotOwner: "the order is another account's",
    TooMany: "the exchange has as many of these as it can hold",
    Stale: "other orders are live now",
    Unproved: "it is no proof",
    Closed: "the market is closed until its next clear",
    Open: "the market is not closed",
    NotAllowed: "this is for the account's owner, or for the operator",
    NotAsked: "this is no question",
    Quota: "you have as many accounts or orders as a member may have",
};
/** @type {{[need: string]: string}} */
const NO_NUMBER = {
    positions: "it has too many positions and orders there for its need to be told",
    unbounded: "what it may owe has no bound",
    wide: "its need is too long a number",
    budget: "its need takes too long to find",
    sum: "its need is too great a number",
};

/** What an account's need is, in words.
 * @param {string} need a number or a word */
export const needWords = need =>
    NO_NUMBER[need] || `it would need ${need} ticks, and has less`;

/** @param {Told} reply */
export function refusalWords({reason, need}) {
    const said = reason === "Margin"
        ? `the account could not bear it: ${needWords(`${need}`)}` : SAID[reason];
    return said === undefined ? `refused, ${reason}` : `refused, since ${said} (${reason})`;
}
