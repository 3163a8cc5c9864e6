// The page of a member: login, views, lines that are sent, and what is told of them.
import {AccountView, BatchesView, OperatorView} from "./account_view.mjs";
import {Feed, Refused, get, isLoggedOut, keep, keptLines, pause, post, send}
    from "./gateway.mjs";
import {TradingState, asksFor} from "./trading_state.mjs";
import {Loading} from "./loading.mjs";
import {MarketView} from "./market_view.mjs";
import {TicketView} from "./ticket_view.mjs";
import {button} from "./forms.mjs";
import {element} from "./tables.mjs";
import {refusalWords} from "./refusal_words.mjs";

/** @typedef {import("./gateway.mjs").Told} Told */

/** @template {HTMLElement} T
 * @param {string} id @param {new () => T} kind
 * @returns {T} */
function part(id, kind) {
    const found = document.getElementById(id);
    if (!(found instanceof kind)) {
        throw new Error(`the page has no ${id}`);
    }
    return found;
}

const section = (/** @type {string} */ id) => part(id, HTMLElement);
const NAMES = ["market", "ticket", "batches", "account", "operator"];
// How often it is looked whether a market is known, and what the operator watches, in milliseconds.
const SOON = 50;
const WATCH = 3000;
const lineState = part("line-state", HTMLParagraphElement);
const loginTold = part("login-told", HTMLParagraphElement);

/** Whom the page speaks for. */
class Trading {
    /** @param {Told} me */
    constructor(me) {
        this.state = new TradingState(me);
        const line = (/** @type {string} */ said) => this.send(said);
        this.market = new MarketView(section("market"), () => this.choose(), line);
        /** @type {{show: (state: TradingState) => void}[]} */
        this.views = [this.market, new TicketView(section("ticket"), line),
            new BatchesView(section("batches")), new AccountView(section("account"), line)];
        if (this.state.isOperator) {
            this.views.push(new OperatorView(section("operator"), line));
        }
        // What is one's own is told by followers, for which what all may see does not wait.
        this.public = new Loading(() => this.loadPublic(), reloadIfLoggedOut);
        this.own = new Loading(() => this.loadOwn(), fault => this.tellOwn(fault));
        this.isThere = false;
        this.missing = "";
        this.told = element("p", {class: "told", id: "told", role: "status"});
        section("tabs").after(this.told);
        this.feed = new Feed(events => this.take(events), isThere => this.setThere(isThere));
        if (this.state.isOperator) {
            // Who opens an account, what a solver proposes and what waits is no event.
            setInterval(() => section("operator").hidden || this.own.want(), WATCH);
        }
    }

    /** @param {boolean} isThere */
    setThere(isThere) {
        this.isThere = isThere;
        this.showState();
        if (!isThere) {
            // A feed does not tell why it ended; what is asked does, where a login ended.
            this.public.want();
        }
    }

    show() {
        this.views.forEach(view => view.show(this.state));
    }

    choose() {
        this.state.look(this.market.select.value);
        this.show();
        this.want({isPublic: true, isOwn: true});
    }

    /** @param {Told[]} events */
    take(events) {
        this.want(asksFor(events));
    }

    /** Asks anew what all may see, and what is one's own.
     * @param {{isPublic: boolean, isOwn: boolean}} asks */
    want({isPublic, isOwn}) {
        if (isPublic) {
            this.public.want();
        }
        if (isOwn) {
            this.own.want();
        }
    }

    async loadPublic() {
        await this.state.loadPublic();
        this.show();
    }

    async loadOwn() {
        while (!this.state.isKnown) {
            await pause(SOON);
        }
        await this.state.loadOwn();
        this.show();
    }

    /** @param {unknown} fault null where there was none */
    tellOwn(fault) {
        reloadIfLoggedOut(fault);
        this.missing = fault instanceof Refused ? fault.message : "";
        this.showState();
    }

    showState() {
        const there = this.missing === "" ? "connected"
            : `connected; balances and positions may be old: ${this.missing}`;
        const told = this.isThere ? there : "connection lost: asked again …";
        // What is said already is not read out again.
        if (lineState.textContent !== told) {
            lineState.textContent = told;
            lineState.className = told === "connected" ? "" : "lost";
        }
    }

    /** @param {string} line @param {import("./gateway.mjs").Kept} [kept] */
    async send(line, kept) {
        const wait = () => this.tell("", `${line}: no answer yet; it is sent again, and counts`
            + " once.");
        this.tell("", `${line}: sent …`);
        try {
            const reply = await send(this.state.name, kept || keep(this.state.name, line), wait);
            const isRefused = reply.reply === "refused";
            const told = isRefused ? refusalWords(reply) : reply.reply;
            this.tell(isRefused ? "no" : "yes", `${isRefused ? "✗" : "✓"} ${line}: ${told}.`);
        } catch (fault) {
            this.tell("no", `✗ ${line}: ${fault instanceof Error ? fault.message : fault}`);
            reloadIfLoggedOut(fault);
        }
    }

    /** Sends what has no answer from before the page was loaded anew, in its order. */
    async sendKept() {
        for (const kept of keptLines(this.state.name)) {
            await this.send(kept.line, kept);
        }
    }

    /** @param {string} kind @param {string} text */
    tell(kind, text) {
        this.told.className = `told ${kind}`;
        this.told.textContent = text;
    }
}

/** @param {unknown} fault */
function reloadIfLoggedOut(fault) {
    if (isLoggedOut(fault)) {
        location.reload();
    }
}

// ---- views

/** Shows the view that the address names, where the member has it.
 * @param {string[]} names @param {boolean} isFocused */
function showView(names, isFocused) {
    const [first] = names;
    const asked = location.hash.slice(1);
    const name = names.includes(asked) ? asked : first;
    NAMES.forEach(each => {
        section(each).hidden = each !== name;
    });
    document.querySelectorAll("nav a").forEach(link =>
        link.getAttribute("href") === `#${name}`
            ? link.setAttribute("aria-current", "page") : link.removeAttribute("aria-current"));
    if (isFocused) {
        section(`${name}-title`).focus();
    }
}

/** @param {Told} me */
function begin(me) {
    section("login").hidden = true;
    const names = NAMES.filter(name => name !== "operator" || me.role === "operator");
    section("tabs").replaceChildren(element("ul", {}, ...names.map(name => element("li", {},
        element("a", {href: `#${name}`}, name[0].toUpperCase() + name.slice(1))))));
    section("tabs").hidden = false;
    const leave = button("Log out",
        () => post("logout").then(() => location.reload(), reloadIfLoggedOut), "quiet");
    part("who", HTMLParagraphElement).replaceChildren(`${me.name} (${me.role}) `, leave);
    const trading = new Trading(me);
    window.addEventListener("hashchange", () => {
        showView(names, true);
        trading.show();
    });
    window.addEventListener("resize", () => trading.show());
    showView(names, false);
    trading.want({isPublic: true, isOwn: true});
    trading.sendKept();
}

async function start() {
    try {
        begin(await get("me"));
    } catch (fault) {
        section("login").hidden = false;
        part("name", HTMLInputElement).focus();
    }
}

async function logIn() {
    const [name, password] = ["name", "password"].map(id => part(id, HTMLInputElement));
    try {
        begin(await post("login", {name: name.value, password: password.value}));
        password.value = "";
    } catch (fault) {
        loginTold.textContent = fault instanceof Error ? fault.message : "Nobody answers.";
        password.value = "";
        password.focus();
    }
}

let isLoggingIn = false;
part("login-form", HTMLFormElement).addEventListener("submit", event => {
    event.preventDefault();
    // By two clicks the views would be laid twice.
    if (!isLoggingIn) {
        isLoggingIn = true;
        logIn().then(() => {
            isLoggingIn = false;
        });
    }
});
start();
