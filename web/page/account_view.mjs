// Accounts: balances, positions and history; the batches; and what the operator does.
import {bundleWords} from "./words.mjs";
import {element, renew, tableElement} from "./tables.mjs";
import {lineForm, numberInput} from "./forms.mjs";
import {positionOf} from "./stakes.mjs";
import {refusalWords} from "./refusal_words.mjs";

/** @typedef {import("./gateway.mjs").Told} Told */
/** @typedef {import("./trading_state.mjs").TradingState} TradingState */

const unseen = () => {};
/** @param {string} value */
const input = (value = "") => numberInput(value, unseen, "");

/** A reply in a few words.
 * @param {Told} reply */
function replyWords({reply, ...more}) {
    if (reply === "refused") {
        return refusalWords(more);
    }
    const told = ["order", "account", "balance", "need", "batch", "mark", "surplus", "market"]
        .filter(key => more[key] !== undefined).map(key => `${key} ${more[key]}`);
    return `${reply}: ${told.join(", ")}`;
}

export class AccountView {
    /** @param {HTMLElement} place @param {(line: string) => void} onLine */
    constructor(place, onLine) {
        this.balances = element("div", {id: "balances"});
        this.positions = element("div", {id: "positions"});
        this.history = element("div", {id: "history"});
        place.append(
            lineForm("Open an account", "open", [["Number of your choice", input()]], onLine),
            lineForm("Withdraw", "withdraw", [["Account", input()], ["Ticks", input()]], onLine),
            this.balances, this.positions, this.history);
    }

    /** @param {TradingState} state */
    show(state) {
        const balances = state.balances.map((each, at) => {
            const {need, secured} = state.needs[at];
            return [`${each.account}`, `${each.balance}`, `${each.reserved}`, `${need}`,
                secured ? "yes" : "no"];
        });
        const positions = state.positions.map(each =>
            [`${each.account}`, `${each.batch}`, `${each.order}`, `${each.side}`,
                bundleWords(positionOf(each)), `${each.fill}`]);
        const history = state.history.map(each =>
            [`${each.at}`, each.line.slice(0, 200), replyWords(each.reply)]);
        renew(this.balances, tableElement({caption: "Accounts, in ticks",
            head: ["account", "balance", "reserved for buys", "need", "secured"],
            rows: balances}));
        const none = state.isOwnKnown
            ? `In market ${state.market} you hold nothing.` : "Positions are asked for …";
        renew(this.positions, positions.length === 0 ? element("p", {}, none)
            : tableElement({caption: `Positions in market ${state.market}`,
                head: ["account", "batch", "order", "side", "bundle", "fill"], rows: positions}));
        renew(this.history, tableElement({caption: "My last lines, the newest first",
            head: ["place", "line", "reply"], rows: history}));
    }
}

export class BatchesView {
    /** @param {HTMLElement} place */
    constructor(place) {
        this.list = element("div", {id: "batch-list"});
        place.append(element("p", {}, "Each opens as a page that draws it and rechecks it in this"
            + " browser. It takes the line alone, and trusts nobody who wrote it."), this.list);
    }

    /** @param {TradingState} state */
    show(state) {
        const rows = state.batches.map(each => [
            element("a", {href: `batch.html#${each.batch}`}, `Recheck batch ${each.batch}`),
            `${each.market}`, `${each.mark}`, `${each.surplus}`, `${each.bound || ""}`,
            `${each.filled} of ${each.orders}`]);
        renew(this.list, tableElement({caption: "Cleared batches, the newest first",
            head: ["batch", "market", "mark", "surplus", "bound", "orders filled"], rows}));
    }
}

export class OperatorView {
    /** @param {HTMLElement} place @param {(line: string) => void} onLine */
    constructor(place, onLine) {
        this.members = element("div", {id: "members"});
        this.solvers = element("div", {id: "solvers"});
        this.lag = element("p", {id: "lag"});
        place.append(
            lineForm("List a market", "market",
                [["Market", input()], ["Underlyings", input("1")]], onLine),
            lineForm("Deposit", "deposit", [["Account", input()], ["Ticks", input()]], onLine),
            lineForm("Close", "close", [["Market", input()]], onLine),
            lineForm("Reopen", "reopen", [["Market", input()]], onLine),
            lineForm("Clear", "clear", [["Market", input()], ["Budget of units", input("10000")]],
                onLine),
            lineForm("Settle for good", "settle",
                [["Market", input()], ["Prices, with commas", input()]], onLine),
            this.lag, this.solvers, this.members);
    }

    /** @param {TradingState} state */
    show(state) {
        const rows = state.members.map(each =>
            [each.name, each.role, element("span", {}, each.accounts.join(", "))]);
        renew(this.members, tableElement({caption: "Members",
            head: ["name", "role", "accounts"], rows}));
        const {entries, proposals, waiting} = state.service;
        this.lag.textContent = `Messages: ${entries}. Of these ${waiting} wait for an answer.`;
        const proposed = proposals.map((/** @type {Told} */ each) => [`${each.session}`,
            `${each.market}`, `${each.surplus}`, `${each.bound}`, `${each.at}`]);
        renew(this.solvers, proposed.length === 0
            ? element("p", {}, "No solver has proposed anything.")
            : tableElement({caption: "What each solver proposed last",
                head: ["session", "market", "surplus", "bound", "place"], rows: proposed}));
    }
}
