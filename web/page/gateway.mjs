// The gateway, as the page speaks to it: what is asked, lines that are sent until they are
// answered, and the feed, which goes on where it was lost.

/** @typedef {{[key: string]: any}} Told */

const PAUSE = 700;
// A frame comes each 20 s at least; so long after the last one the connection is lost, in
// milliseconds, and so often that is looked at.
const SILENCE = 50000;
const LOOK = 5000;
// So long an answer may take, in milliseconds; what is lost without a word has none.
const LONGEST = 60000;
const KEPT = "ragvismo-lines";

/** Why something was refused, in a sentence. */
export class Refused extends Error {
    /** @param {number} status @param {string} reason @param {string} told */
    constructor(status, reason, told) {
        super(told);
        this.status = status;
        this.reason = reason;
    }
}

/** @param {number} milliseconds */
export const pause = milliseconds => new Promise(go => setTimeout(go, milliseconds));

/** @param {string} path @param {RequestInit} [more]
 * @returns {Promise<Told>} */
async function ask(path, more = {}) {
    const ending = new AbortController();
    const timer = setTimeout(() => ending.abort(), LONGEST);
    try {
        const {signal} = ending;
        const answer = await fetch(path, {credentials: "same-origin", signal, ...more});
        const told = await answer.json();
        if (told.reply === "gateway") {
            throw new Refused(answer.status, told.reason, told.told);
        }
        return told;
    } finally {
        clearTimeout(timer);
    }
}

/** @param {string} path */
export const get = path => ask(path);

/** @param {string} path @param {Told} [body] */
export const post = (path, body = {}) =>
    ask(path, {method: "POST", body: JSON.stringify(body)});

/** Whether a fault goes by itself: nobody answers, or not yet, or too much is asked.
 * @param {unknown} fault */
export const isPassing = fault =>
    !(fault instanceof Refused) || ["Unanswered", "Often"].includes(fault.reason);

/** Whether somebody has to log in.
 * @param {unknown} fault */
export const isLoggedOut = fault => fault instanceof Refused && fault.reason === "Login";

/** @typedef {{key: string, line: string, mayCount: boolean}} Kept a line, the key under which it
 * counts once, and whether it was sent already, so that it may count */

/** The lines that a member sent, without an answer, before the page was loaded anew.
 * @param {string} name
 * @returns {Kept[]} */
export const keptLines = name => JSON.parse(sessionStorage.getItem(`${KEPT}-${name}`) || "[]");

/** Keeps a line of a member in the place of the one of its key, or that one no more.
 * @param {string} name @param {string} key @param {...Kept} lines none, or one */
function setKept(name, key, ...lines) {
    const others = keptLines(name).filter(kept => kept.key !== key);
    sessionStorage.setItem(`${KEPT}-${name}`, JSON.stringify([...others, ...lines]));
}

/** A line of a member, kept until it is answered.
 * @param {string} name @param {string} line
 * @returns {Kept} */
export function keep(name, line) {
    const kept = {key: crypto.randomUUID(), line, mayCount: false};
    setKept(name, kept.key, {...kept, mayCount: true});
    return kept;
}

/** Sends what is kept until it is answered. What may count already is kept where somebody has to
 * log in first.
 * @param {string} name @param {Kept} kept @param {() => void} onWait
 * @returns {Promise<Told>} the reply of the exchange */
export async function send(name, {key, line, mayCount}, onWait) {
    for (let isRepeat = mayCount; ; isRepeat = true) {
        try {
            const headers = {"Idempotency-Key": key};
            const told = await ask("lines", {method: "POST", body: line, headers});
            setKept(name, key);
            return told.reply;
        } catch (fault) {
            if (!isPassing(fault)) {
                if (!isRepeat || !isLoggedOut(fault)) {
                    setKept(name, key);
                }
                throw fault;
            }
            onWait();
            await pause(PAUSE);
        }
    }
}

/** Tells what comes, and whether there is a connection. */
export class Feed {
    /** @param {(events: Told[]) => void} onEvents @param {(isThere: boolean) => void} onState */
    constructor(onEvents, onState) {
        this.onEvents = onEvents;
        this.onState = onState;
        this.at = -1;
        this.connect();
    }

    connect() {
        const place = new URL("feed", location.href);
        place.protocol = place.protocol === "https:" ? "wss:" : "ws:";
        place.hash = "";
        place.search = this.at < 0 ? "" : `?since=${this.at}`;
        const socket = new WebSocket(place);
        let heard = Date.now();
        // No browser tells that what it is connected to went away without a word.
        const looking = setInterval(() => {
            if (Date.now() - heard > SILENCE) {
                this.onState(false);
                socket.close();
            }
        }, LOOK);
        socket.addEventListener("message", event => {
            const told = JSON.parse(event.data);
            heard = Date.now();
            // What came before the first frame is not told.
            const first = this.at < 0 ? [{event: "gap"}] : [];
            this.at = told.at;
            this.onState(true);
            this.onEvents([...first, ...told.events]);
        });
        socket.addEventListener("close", () => {
            clearInterval(looking);
            this.onState(false);
            setTimeout(() => this.connect(), PAUSE);
        });
    }
}
