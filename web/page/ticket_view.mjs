// The ticket: a bundle of up to four options, said in words and drawn before it is sent.
import {TEMPLATES, faultOf, legsFor, lineOf, orderFor, wordsFor} from "./bundles.mjs";
import {button, choice, field, numberInput, setOptions} from "./forms.mjs";
import {mostFor, needOn} from "./needs.mjs";
import {orderOf, positionOf} from "./stakes.mjs";
import {AskedLast} from "./asked_last.mjs";
import {element, say} from "./tables.mjs";
import {needWords} from "./refusal_words.mjs";
import {WorthPicture} from "./worth_picture.mjs";
import {underlying} from "./words.mjs";

/** @typedef {import("./bundles.mjs").Ticket} Ticket */
/** @typedef {import("./batch.mjs").Order} Order */
/** @typedef {import("./gateway.mjs").Told} Told */
/** @typedef {import("./trading_state.mjs").TradingState} TradingState */
/** @typedef {{count: HTMLInputElement, kind: HTMLSelectElement, strike: HTMLInputElement,
 *     weights: HTMLInputElement[]}} Row */

const MOST = 4;

/** What an account needs more with an order, at most where there are several underlyings.
 * @param {TradingState} state @param {string} account @param {Order} order */
function moreFor(state, account, order) {
    const isOwn = (/** @type {Told} */ each) => `${each.account}` === account;
    const positions = state.positions.filter(isOwn).map(positionOf);
    const orders = state.orders.filter(isOwn).map(orderOf);
    return state.count() === 1
        ? needOn(positions, [...orders, order]) - needOn(positions, orders) : mostFor(order);
}

/** What an order needs of an account's balance, in words.
 * @param {TradingState} state @param {string} account @param {Order} order */
function needFor(state, account, order) {
    const told = state.needs.find(each => `${each.account}` === account);
    if (told === undefined || !/^[0-9]+$/.test(told.need)) {
        return told === undefined ? "" : `Of account ${account} ${needWords(told.need)}.`;
    }
    const more = moreFor(state, account, order);
    if (more === null) {
        return "What it needs is told when it is sent; nothing is placed that the account cannot"
            + " bear.";
    }
    const all = BigInt(told.need) + more;
    const [most, may] = state.count() === 1 ? ["", "would"] : ["at most ", "may"];
    const holds = `With it account ${account} needs ${most}${all} of its ${told.balance} ticks.`;
    return all <= BigInt(told.balance) || !told.secured ? holds
        : `${holds} That is too much: it ${may} be refused.`;
}

/** What is filled of an order now, in words.
 * @param {Told} told @param {string} quantity */
function triedWords(told, quantity) {
    const fill = told.fill === "0" ? "nothing"
        : told.fill === quantity ? "all" : `${told.fill} of ${quantity}`;
    return told.reply === "tried" ? `If the market were cleared now, ${fill} would be filled.`
        : told.reply === "gateway" ? told.told : "";
}

export class TicketView {
    /** @param {HTMLElement} place @param {(line: string) => void} onLine */
    constructor(place, onLine) {
        this.onLine = onLine;
        const change = () => {
            this.taken.isTouched = true;
            this.redraw();
        };
        this.account = choice([], change);
        this.side = choice([["buy", "buy"], ["sell", "sell"]], change);
        this.template = choice(Object.keys(TEMPLATES).map(name => [name, name]),
            () => {
                this.taken.isTouched = true;
                this.fill();
            });
        this.price = numberInput("6", change);
        this.quantity = numberInput("1", change);
        this.legs = element("fieldset", {}, element("legend", {}, "Options of the bundle"));
        this.says = element("p", {class: "says", id: "ticket-says", role: "status"});
        this.needs = element("p", {id: "ticket-need"});
        this.fills = element("p", {id: "ticket-try"});
        this.told = "";
        // Whether it is asked what would be filled of the order that the ticket has now.
        this.isTried = false;
        this.tried = new AskedLast(([told]) => this.tellTried(told));
        this.line = element("code", {id: "ticket-line"});
        this.send = button("Send the order", () => this.submit());
        this.send.id = "ticket-send";
        this.picture = new WorthPicture("What the order alone is worth, filled whole");
        /** @type {Row[]} */
        this.rows = [];
        this.count = 0;
        this.market = "";
        // The market whose strikes the ticket has, and whether somebody wrote in it.
        this.taken = {market: "", strike: 10, isTouched: false};
        this.phase = "";
        /** @type {TradingState | null} */
        this.state = null;
        this.place = place;
        this.lay(place);
    }

    /** @param {HTMLElement} place */
    lay(place) {
        const more = element("p", {class: "row"},
            button("One option more", () => this.add(), "quiet"),
            button("One option less", () => this.remove(), "quiet"));
        const first = element("div", {class: "fields"}, field("Account", this.account),
            field("Side", this.side), field("Kind", this.template));
        const second = element("div", {class: "fields"}, field("Limit price", this.price),
            field("Quantity", this.quantity));
        const said = element("p", {}, "The line: ", this.line);
        place.append(element("div", {class: "two"},
            element("div", {}, first, this.legs, more, second, this.says, this.needs,
                this.fills, said, this.send),
            element("div", {}, this.picture.place)));
    }

    /** @param {TradingState} state */
    show(state) {
        setOptions(this.account, state.accounts.map(each => [`${each}`, `${each}`]));
        const count = state.count();
        const isOther = state.isKnown && !this.taken.isTouched && state.market !== this.taken.market
            && state.middle() !== this.taken.strike;
        const isNew = count !== this.count || this.rows.length === 0 || isOther;
        this.taken.market = state.isKnown ? state.market : this.taken.market;
        this.count = count;
        this.market = state.market;
        this.phase = state.phase();
        this.state = state;
        if (isNew) {
            this.fill();
        } else {
            this.redraw();
        }
    }

    /** Takes the legs of the kind that was chosen. */
    fill() {
        const weights = Array.from({length: this.count}, (_, at) => at === 0 ? "1" : "0");
        this.taken.strike = this.state === null ? 10 : this.state.middle();
        const legs = legsFor(this.template.value, this.taken.strike, weights);
        this.setRows(legs.map(leg => this.row(leg)));
    }

    /** @param {import("./bundles.mjs").TicketLeg} leg
     * @returns {Row} */
    row(leg) {
        const change = () => {
            this.taken.isTouched = true;
            this.redraw();
        };
        const kind = choice([["call", "call"], ["put", "put"]], change);
        kind.value = leg.kind;
        return {kind, count: numberInput(leg.count, change),
            strike: numberInput(leg.strike, change),
            weights: leg.weights.map(weight => numberInput(weight, change))};
    }

    /** @param {Row[]} rows */
    setRows(rows) {
        this.rows = rows;
        const [legend] = this.legs.children;
        this.legs.replaceChildren(legend, ...rows.map(({count, kind, strike, weights}) =>
            element("div", {class: "leg"}, field("Count", count), field("Kind", kind),
                field("Strike", strike), ...(this.count === 1 ? [] : weights.map((weight, at) =>
                    field(`Weight of ${underlying(at, this.count)}`, weight))))));
        this.redraw();
    }

    add() {
        if (this.rows.length < MOST) {
            this.setRows([...this.rows, this.row({...this.ticket().legs[this.rows.length - 1]})]);
        }
    }

    remove() {
        if (this.rows.length > 1) {
            this.setRows(this.rows.slice(0, -1));
        }
    }

    /** @returns {Ticket} */
    ticket() {
        const legs = this.rows.map(({count, kind, strike, weights}) =>
            ({count: count.value.trim(), kind: kind.value, strike: strike.value.trim(),
                weights: weights.map(weight => weight.value.trim())}));
        return {account: this.account.value, market: this.market, side: this.side.value,
            price: this.price.value.trim(), quantity: this.quantity.value.trim(), legs};
    }

    /** @param {Ticket} ticket */
    fault(ticket) {
        return ["closed", "settled"].includes(this.phase)
            ? `Market ${this.market} is ${this.phase}: it takes no orders.` : faultOf(ticket);
    }

    redraw() {
        const ticket = this.ticket();
        const fault = this.fault(ticket);
        this.send.toggleAttribute("disabled", fault !== "");
        this.isTried = false;
        this.line.textContent = "";
        this.needs.textContent = "";
        if (fault !== "") {
            say(this.says, fault);
            this.fills.textContent = "";
        }
        if (fault === "") {
            const order = orderFor(ticket);
            say(this.says, `${wordsFor(order)} (Market ${this.market}.)`);
            this.line.textContent = lineOf(ticket);
            this.picture.show([{told: "the order, filled whole at its limit", kind: "held",
                stakes: [order]}], this.count);
            this.tellNeed(ticket, order);
        }
    }

    /** What the order needs, and what would be filled of it, where that can be told.
     * @param {Ticket} ticket @param {Order} order */
    tellNeed(ticket, order) {
        if (this.state === null || !this.state.isKnown || this.place.hidden) {
            return;
        }
        this.needs.textContent = this.state.isOwnKnown
            ? needFor(this.state, ticket.account, order) : "";
        const [{count, kind, strike, weights}] = ticket.legs;
        if (ticket.legs.length > 1 || count !== "1") {
            this.fills.textContent = "What would be filled now is told of single options alone.";
            return;
        }
        const option = [kind, strike, ...weights].join(",");
        const asked = [ticket.market, ticket.side, ticket.price, ticket.quantity, option];
        const paths = [`try/${asked.join("/")}`];
        this.fills.textContent = this.tried.isNew(paths, this.state.at)
            ? "What would be filled now is asked …" : this.told;
        this.isTried = true;
        this.tried.want(paths, this.state.at);
    }

    /** @param {Told} told */
    tellTried(told) {
        if (this.isTried) {
            this.told = triedWords(told, this.quantity.value.trim());
            this.fills.textContent = this.told;
        }
    }

    submit() {
        const ticket = this.ticket();
        if (this.fault(ticket) === "") {
            this.onLine(lineOf(ticket));
        }
    }
}
