// What the market bids and asks for an option whose strike is dragged, and how deep it is.
import {choice, field, numberInput} from "./forms.mjs";
import {element, foldedTable, renew, say} from "./tables.mjs";
import {AskedLast} from "./asked_last.mjs";
import {drawDepth} from "./depth_picture.mjs";
import {refusalWords} from "./refusal_words.mjs";
import {tableOf} from "./steps.mjs";
import {underlying} from "./words.mjs";

/** @typedef {import("./depth_picture.mjs").Depth} Depth */
/** @typedef {import("./gateway.mjs").Told} Told */
/** @typedef {import("./trading_state.mjs").TradingState} TradingState */

// Beside the implied price these limits are tried, with an order of so many.
const STEPS = [0, 1, 2, 4];
const MANY = 1000;
const WHOLE = /^-?[0-9]{1,9}$/;
// What is told in place of a price.
const NO_PRICE = ["never", "unmarked"];

/** @param {Told} priced */
function pricedWords({ask, bid}) {
    const asks = ask === "never" ? "Nobody sells it"
        : ask === "unmarked" ? "What is asked takes too long to find" : `It is asked at ${ask}`;
    const bids = bid === "never" ? "nobody buys it"
        : bid === "unmarked" ? "what is bid takes too long to find" : `it is bid at ${bid}`;
    return `${asks}, and ${bids}.`;
}

/** The limits to be tried, from the dearest buy down.
 * @param {Told} priced
 * @returns {{side: string, price: number}[]} */
function limitsOf({ask, bid}) {
    const buys = NO_PRICE.includes(ask) ? [] : STEPS.map(step => Number(ask) + step).reverse();
    const sells = NO_PRICE.includes(bid) ? [] : STEPS.map(step => Number(bid) - step)
        .filter(price => price >= 0);
    return [...buys.map(price => ({side: "buy", price})),
        ...sells.map(price => ({side: "sell", price}))];
}

export class ProbeView {
    constructor() {
        const change = () => this.ask();
        this.kind = choice([["call", "call"], ["put", "put"]], change);
        this.slider = element("input", {type: "range", min: "0", max: "200", value: "10",
            id: "strike-range", "aria-label": "Strike, dragged"});
        this.strike = numberInput("10", () => this.take(this.strike.value));
        this.weights = element("span", {class: "within"});
        this.says = element("p", {class: "says", id: "implied", role: "status"});
        this.depth = element("div", {id: "depth"});
        this.priced = new AskedLast(([reply]) => this.tell(reply));
        this.tried = new AskedLast(replies => this.draw(replies));
        /** @type {{side: string, price: number}[]} */
        this.limits = [];
        /** @type {HTMLInputElement[]} */
        this.inputs = [];
        this.market = "";
        this.at = -1;
        this.slider.addEventListener("input", () =>
            this.take(this.slider instanceof HTMLInputElement ? this.slider.value : ""));
        this.place = element("div", {class: "probe"},
            element("h3", {}, "What would I pay now?"),
            element("div", {class: "fields"}, field("Option", this.kind),
                field("Strike", this.strike), this.weights),
            this.slider, this.says, this.depth);
    }

    /** @param {string} strike */
    take(strike) {
        this.strike.value = strike;
        if (this.slider instanceof HTMLInputElement) {
            this.slider.value = strike;
        }
        this.ask();
    }

    /** @param {TradingState} state */
    show(state) {
        const isTraded = ["open", "closed"].includes(state.phase());
        this.place.hidden = !isTraded;
        if (!isTraded || !state.isKnown) {
            return;
        }
        if (state.market !== this.market) {
            this.market = state.market;
            this.set(state);
        }
        if (!this.isHidden()) {
            this.at = state.at;
            this.ask();
        }
    }

    isHidden() {
        return this.place.closest("section")?.hidden !== false;
    }

    /** A slider past the strikes of the live orders, a weight for each underlying, and an option
     * that somebody wants.
     * @param {TradingState} state */
    set(state) {
        const legs = state.orders.flatMap(order => order.legs);
        const strikes = legs.map((/** @type {Told} */ leg) => Math.abs(leg.form[0]));
        this.slider.setAttribute("max", `${Math.ceil(Math.max(20, ...strikes) * 1.5)}`);
        const wanted = state.orders.find(order => order.legs.length === 1);
        const [strike, ...weights] = wanted === undefined ? [-10, 1] : wanted.legs[0].form;
        const isPut = weights.every((/** @type {number} */ weight) => weight <= 0);
        this.kind.value = isPut ? "put" : "call";
        const count = state.count();
        this.inputs = Array.from({length: count}, (_, at) =>
            numberInput(`${(isPut ? -1 : 1) * (weights[at] || 0)}`, () => this.ask()));
        this.weights.replaceChildren(...(count === 1 ? [] : this.inputs.map((input, at) =>
            field(`Weight of ${underlying(at, count)}`, input))));
        this.strike.value = `${isPut ? strike : -strike}`;
        if (this.slider instanceof HTMLInputElement) {
            this.slider.value = this.strike.value;
        }
        this.says.textContent = "";
        this.depth.hidden = true;
    }

    /** The option as it stands in a line; nothing where it is none. */
    option() {
        const fields = [this.strike, ...this.inputs].map(input => input.value.trim());
        const isOne = fields.every(text => WHOLE.test(text));
        return isOne ? [this.kind.value, ...fields.map(Number)].join(",") : "";
    }

    ask() {
        const option = this.option();
        if (option === "") {
            say(this.says, "Each field is a whole number.");
        } else if (this.at >= 0) {
            this.priced.want([`price/${this.market}/1/${option}`], this.at);
        }
    }

    /** @param {Told} reply */
    tell(reply) {
        if (this.option() === "") {
            return;
        }
        const isPriced = reply.reply === "priced";
        say(this.says, isPriced ? pricedWords(reply)
            : reply.reply === "refused" ? `It is ${refusalWords(reply)}.` : reply.told);
        this.limits = isPriced ? limitsOf(reply) : [];
        if (this.limits.length === 0) {
            this.depth.hidden = true;
            return;
        }
        this.tried.want(this.limits.map(({side, price}) =>
            `try/${this.market}/${side}/${price}/${MANY}/${this.option()}`), this.at);
    }

    /** @param {Told[]} replies */
    draw(replies) {
        /** @type {Depth[]} */
        const rows = this.limits.map((limit, at) => ({...limit, fill: replies[at].fill}))
            .filter(row => row.fill !== undefined);
        // What a reader unfolded stays so until there is something to show again.
        this.depth.hidden = rows.length === 0;
        if (rows.length === 0) {
            return;
        }
        const width = Math.max(280, Math.min(this.place.clientWidth || 560, 620));
        const table = tableOf(`What would be filled of ${MANY} options`, ["side", "limit", "fill"],
            rows.map(({side, price, fill}) => [side, `${price}`, fill]));
        renew(this.depth,
            element("p", {}, `So much of an order for ${MANY} would be filled by a clear now:`),
            drawDepth(rows, width), foldedTable(table));
    }
}
