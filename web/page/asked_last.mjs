// Asks what is wanted last, a few times a second: while a field is dragged not each of its values.
import {Refused, get, isPassing, pause} from "./gateway.mjs";

/** @typedef {import("./gateway.mjs").Told} Told */

const REST = 250;
const AGAIN = 1000;

/** @param {string} path
 * @returns {Promise<Told>} the reply, or why there is none, and whether there may be one soon */
async function told(path) {
    try {
        return await get(path);
    } catch (fault) {
        const why = fault instanceof Refused ? fault.message : "Nobody answers.";
        return {reply: "gateway", told: why, isPassing: isPassing(fault)};
    }
}

export class AskedLast {
    /** @param {(replies: Told[]) => void} onTold */
    constructor(onTold) {
        this.onTold = onTold;
        this.wanted = "[]";
        this.asked = "[]";
        /** @type {Told[]} */
        this.replies = [];
        this.isAsking = false;
    }

    /** Whether this is not what was told last.
     * @param {string[]} paths @param {number} at */
    isNew(paths, at) {
        return JSON.stringify([at, ...paths]) !== this.asked;
    }

    /** @param {string[]} paths that are asked anew where the place in the log is another one, and
     * told again where they were told last
     * @param {number} at */
    async want(paths, at) {
        this.wanted = JSON.stringify([at, ...paths]);
        if (this.wanted === this.asked) {
            // Another thing may be said in its place meanwhile.
            this.onTold(this.replies);
        }
        if (this.isAsking) {
            return;
        }
        this.isAsking = true;
        while (this.asked !== this.wanted) {
            await this.askWanted();
        }
        this.isAsking = false;
    }

    async askWanted() {
        const {wanted} = this;
        await pause(REST);
        if (wanted !== this.wanted) {
            return;
        }
        const [, ...paths] = JSON.parse(wanted);
        const replies = [];
        for (const path of paths) {
            replies.push(await told(path));
            if (wanted !== this.wanted) {
                return;
            }
        }
        this.onTold(replies);
        if (replies.some(reply => reply.isPassing)) {
            await pause(AGAIN);
        } else {
            this.asked = wanted;
            this.replies = replies;
        }
    }
}
