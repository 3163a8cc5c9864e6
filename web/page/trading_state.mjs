// What the page knows of the exchange, asked anew when something happened.
import {get} from "./gateway.mjs";

/** @typedef {import("./gateway.mjs").Told} Told */

export class TradingState {
    /** @param {Told} me */
    constructor(me) {
        this.name = String(me.name);
        this.isOperator = me.role === "operator";
        /** @type {number[]} */
        this.accounts = me.accounts;
        /** @type {Told[]} */
        this.markets = [];
        /** @type {Told[]} the live orders of the market that is looked at */
        this.orders = [];
        /** @type {Told[]} */
        this.batches = [];
        /** @type {Told[]} the balance of each account */
        this.balances = [];
        /** @type {Told[]} the need of each account */
        this.needs = [];
        /** @type {Told[]} the positions in that market, of all accounts */
        this.positions = [];
        /** @type {Told[]} */
        this.history = [];
        /** @type {Told[]} */
        this.members = [];
        /** @type {Told} how the service is, for the operator */
        this.service = {entries: 0, proposals: [], waiting: 0};
        /** The place in the log up to which the live orders are told. */
        this.at = -1;
        /** By how much the clock of the gateway is ahead of this one, in milliseconds. */
        this.ahead = 0;
        this.market = "";
        // Whether its live orders are told, and one's own positions in it.
        this.isKnown = false;
        this.isOwnKnown = false;
    }

    /** Looks at a market, whose orders and positions are not known yet.
     * @param {string} market */
    look(market) {
        this.market = market;
        this.orders = [];
        this.positions = [];
        this.isKnown = false;
        this.isOwnKnown = false;
    }

    /** The market that is looked at.
     * @returns {Told | undefined} */
    chosen() {
        return this.markets.find(each => `${each.market}` === this.market);
    }

    /** Whether orders come and go in it: open, closed or settled; nothing where there is none. */
    phase() {
        const market = this.chosen();
        return market === undefined ? "" : String(market.phase);
    }

    /** A strike in the middle of those of the live orders. */
    middle() {
        const strikes = this.orders.flatMap(order => order.legs)
            .map((/** @type {Told} */ leg) => Math.abs(leg.form[0])).sort((a, b) => a - b);
        return strikes.length === 0 ? 10 : strikes[Math.floor(strikes.length / 2)];
    }

    /** How many underlyings it has. */
    count() {
        const market = this.chosen();
        return market === undefined ? 1 : Number(market.underlyings);
    }

    /** What all may see. Of a market that is not looked at any more nothing is taken. */
    async loadPublic() {
        const told = await get("markets");
        this.markets = told.markets;
        this.ahead = told.now - Date.now();
        if (this.chosen() === undefined && this.markets.length > 0) {
            this.market = `${this.markets[0].market}`;
        }
        const {market} = this;
        const isThere = this.chosen() !== undefined;
        const book = isThere ? await get(`book/${market}`) : {at: -1, orders: []};
        if (market === this.market) {
            this.orders = book.orders;
            this.at = book.at;
            this.isKnown = true;
        }
        this.batches = (await get("batches")).batches.slice().reverse();
    }

    /** What is one's own. */
    async loadOwn() {
        this.accounts = (await get("me")).accounts;
        const {market} = this;
        const listed = this.chosen();
        /** @type {Told[]} */
        const balances = [];
        /** @type {Told[]} */
        const needs = [];
        /** @type {Told[]} */
        const positions = [];
        for (const account of this.accounts) {
            balances.push(await get(`balance/${account}`));
            needs.push(await get(`need/${account}`));
            if (listed !== undefined && listed.prices.length === 0) {
                const told = await get(`positions/${account}/${market}`);
                positions.push(...told.positions.map((/** @type {Told} */ each) =>
                    ({...each, account})));
            }
        }
        this.balances = balances;
        this.needs = needs;
        this.positions = market === this.market ? positions : [];
        this.isOwnKnown = market === this.market;
        this.history = (await get("history")).lines.filter(isShown).reverse();
        if (this.isOperator) {
            this.members = (await get("members")).members;
            this.service = await get("service");
        }
    }
}

/** Whether an answer is shown among one's last lines.
 * @param {Told} answer */
const isShown = answer => !["balance", "positions"].includes(answer.reply.reply);
const MOVING = ["cleared", "settled", "deposited", "closed", "gap"];

/** What is to be asked anew after events: all's, and one's own.
 * @param {Told[]} events */
export function asksFor(events) {
    const answers = events.filter(each => each.event === "answer");
    const isOwn = answers.some(isShown) || events.some(each => MOVING.includes(each.event));
    return {isPublic: events.length > answers.length, isOwn};
}
