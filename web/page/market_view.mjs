// The market: its live orders, one's own marked, and what one holds and ordered over the price.
import {bundleWords} from "./words.mjs";
import {button, choice, field, setOptions} from "./forms.mjs";
import {ProbeView} from "./probe_view.mjs";
import {element, renew, tableElement} from "./tables.mjs";
import {orderOf, positionOf} from "./stakes.mjs";
import {WorthPicture} from "./worth_picture.mjs";

/** @typedef {import("./gateway.mjs").Told} Told */
/** @typedef {import("./trading_state.mjs").TradingState} TradingState */

/** How a market is chosen.
 * @param {Told} market
 * @returns {[value: string, told: string]} */
function optionOf({market, underlyings, orders, phase, prices}) {
    const told = prices.length > 0 ? `settled at ${prices.join(", ")}`
        : `${phase}; live orders: ${orders}`;
    return [`${market}`, `${market} (underlyings: ${underlyings}; ${told})`];
}

/** What the phase of a market means.
 * @param {Told | undefined} market */
function phaseWords(market) {
    if (market === undefined) {
        return "No market is listed yet.";
    }
    return market.phase === "open"
        ? "Open: orders wait for the next clear, which takes all of them at once."
        : market.phase === "closed"
            ? "Closed: no order comes or goes until the next clear, which takes all at once."
            : `Settled at ${market.prices.join(", ")}, for good.`;
}

/** What comes next, and when.
 * @param {TradingState} state */
function clockWords(state) {
    const market = state.chosen();
    if (market === undefined || market.next === null || market.phase === "settled") {
        return "";
    }
    const seconds = Math.ceil((market.next.at - Date.now() - state.ahead) / 1000);
    if (seconds <= 0) {
        return `Next: ${market.next.does}, as soon as there are orders.`;
    }
    const [minutes, rest] = [Math.floor(seconds / 60), `${seconds % 60}`.padStart(2, "0")];
    return `Next: ${market.next.does} in ${minutes}:${rest}`;
}

export class MarketView {
    /** @param {HTMLElement} place @param {() => void} onMarket
     * @param {(line: string) => void} onLine */
    constructor(place, onMarket, onLine) {
        this.onLine = onLine;
        this.select = choice([], onMarket);
        this.phase = element("p", {class: "says", id: "phase"});
        this.clock = element("p", {id: "clock"});
        /** @type {TradingState | null} */
        this.state = null;
        setInterval(() => this.tick(), 1000);
        this.book = element("div", {id: "book"});
        this.picture = new WorthPicture("What I hold and ordered is worth");
        this.probe = new ProbeView();
        const stakes = element("div", {}, element("h3", {}, "What I hold and ordered"),
            this.picture.place);
        place.append(element("div", {class: "fields"}, field("Market", this.select)), this.phase,
            this.clock, element("div", {class: "two wide"},
                element("div", {}, element("h3", {}, "Live orders"), this.book), stakes,
                this.probe.place));
    }

    tick() {
        this.clock.textContent = this.state === null ? "" : clockWords(this.state);
    }

    /** @param {TradingState} state */
    show(state) {
        setOptions(this.select, state.markets.map(optionOf));
        this.select.value = state.market;
        this.phase.textContent = phaseWords(state.chosen());
        this.state = state;
        this.tick();
        this.showBook(state);
        this.showStakes(state);
        this.probe.show(state);
    }

    /** @param {TradingState} state */
    showStakes(state) {
        this.picture.place.hidden = !state.isOwnKnown;
        if (state.isOwnKnown) {
            const own = state.orders.filter(order => state.accounts.includes(order.account));
            const held = state.positions.map(positionOf);
            this.picture.show([
                {told: "held now", kind: "held", stakes: held},
                {told: "with my orders, all filled", kind: "ordered",
                    stakes: [...held, ...own.map(orderOf)]},
            ], state.count());
        }
    }

    /** @param {TradingState} state */
    showBook(state) {
        renew(this.book, state.orders.length > 0 ? this.bookOf(state)
            : element("p", {}, state.isKnown ? "There are none." : "They are asked for …"));
    }

    /** @param {TradingState} state */
    bookOf(state) {
        const isOpen = state.phase() === "open";
        const rows = state.orders.map(order => {
            const isOwn = state.accounts.includes(order.account);
            const cancel = button("Cancel",
                () => this.onLine(`cancel,${order.account},${order.order}`), "quiet");
            cancel.setAttribute("aria-label", `Cancel order ${order.order}`);
            const whose = order.account === undefined ? "" : `${order.account}`;
            return [`${order.order}`, `${order.side}`, bundleWords(orderOf(order)),
                `${order.price}`, `${order.quantity}`, isOwn ? `★ mine: ${whose}` : whose,
                isOwn && isOpen ? cancel : ""];
        });
        const table = tableElement({caption: "Live orders, by number",
            head: ["order", "side", "bundle", "limit", "quantity", "account", ""], rows});
        table.querySelectorAll("tbody tr").forEach((row, at) =>
            row.classList.toggle("own", state.accounts.includes(state.orders[at].account)));
        return table;
    }
}
