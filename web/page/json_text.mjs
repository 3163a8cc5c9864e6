// A reader of JSON that loses no digit: a number stays the text that it is. An object is a Map, and
// where a key comes twice the last counts.

/** A number as it is written. */
export class NumberText {
    /** @param {string} text */
    constructor(text) {
        this.text = text;
    }
}

/** @typedef {null | boolean | string | NumberText | JsonList | JsonObject} Json */
/** @typedef {Json[]} JsonList */
/** @typedef {Map<string, Json>} JsonObject */

/** The text is not one JSON value. */
export class NotJson extends Error {}

const DEEPEST = 127;
const NUMBER = /-?(0|[1-9][0-9]*)(?:\.([0-9]+))?(?:[eE]([+-]?[0-9]+))?/y;
const PLAIN = /[^"\\\u0000-\u001f]*/y;
const LONE = /[\ud800-\udfff]/u;
const BLANKS = /[ \n\t\r]*/y;
const HEX = /[0-9a-fA-F]{4}/y;
const ESCAPES = new Map(Object.entries({
    '"': '"', "\\": "\\", "/": "/", b: "\b", f: "\f", n: "\n", r: "\r", t: "\t",
}));
// From here on there is no double: half a step above the greatest.
const NO_DOUBLE = 2n ** 1024n - 2n ** 970n;

/** Whether a number, its digits moved by a power of ten, is below what a double holds.
 * @param {string} told @param {bigint} power */
function hasDouble(told, power) {
    const text = told.replace(/^0+/, "");
    const places = BigInt(text.length) + power;
    if (text === "" || places < 300n || places > 320n) {
        return text === "" || places < 300n;
    }
    const digits = BigInt(text);
    return power < 0n ? digits < NO_DOUBLE * 10n ** -power : digits * 10n ** power < NO_DOUBLE;
}

class Reader {
    /** @param {string} text */
    constructor(text) {
        this.text = text;
        this.at = 0;
        this.depth = 0;
    }

    /** What a pattern finds here, which is gone past.
     * @param {RegExp} pattern */
    take(pattern) {
        pattern.lastIndex = this.at;
        const found = pattern.exec(this.text);
        if (found === null) {
            throw new NotJson(`place ${this.at + 1} of the line begins no JSON value`);
        }
        this.at = pattern.lastIndex;
        return found;
    }

    /** Whether this word comes next; then it is gone past.
     * @param {string} word */
    meets(word) {
        const does = this.text.startsWith(word, this.at);
        this.at += does ? word.length : 0;
        return does;
    }

    /** @param {string} word */
    expect(word) {
        if (!this.meets(word)) {
            throw new NotJson(`at place ${this.at + 1} of the line ${word} is missing`);
        }
    }

    /** @returns {Json} */
    value() {
        this.take(BLANKS);
        const value = this.bare();
        this.take(BLANKS);
        return value;
    }

    /** @returns {Json} */
    bare() {
        switch (this.text[this.at]) {
        case "{": return this.inside(() => this.object());
        case "[": return this.inside(() => this.list());
        case '"': return this.string();
        case "t": return this.word("true", true);
        case "f": return this.word("false", false);
        case "n": return this.word("null", null);
        default: return this.number();
        }
    }

    /** @param {string} word @param {Json} value */
    word(word, value) {
        this.expect(word);
        return value;
    }

    /** A value whose first byte, a bracket, is gone past.
     * @template T
     * @param {() => T} read */
    inside(read) {
        this.depth += 1;
        if (this.depth > DEEPEST) {
            throw new NotJson(`it has more than ${DEEPEST} levels`);
        }
        this.at += 1;
        const value = read();
        this.depth -= 1;
        return value;
    }

    /** Behind the brace.
     * @returns {JsonObject} */
    object() {
        const members = new Map();
        this.take(BLANKS);
        if (this.meets("}")) {
            return members;
        }
        do {
            this.take(BLANKS);
            const key = this.string();
            this.take(BLANKS);
            this.expect(":");
            members.set(key, this.value());
        } while (this.meets(","));
        this.expect("}");
        return members;
    }

    /** Behind the bracket.
     * @returns {JsonList} */
    list() {
        /** @type {JsonList} */
        const items = [];
        this.take(BLANKS);
        if (this.meets("]")) {
            return items;
        }
        do {
            items.push(this.value());
        } while (this.meets(","));
        this.expect("]");
        return items;
    }

    string() {
        this.expect('"');
        let text = this.take(PLAIN)[0];
        while (!this.meets('"')) {
            this.expect("\\");
            text += this.escaped() + this.take(PLAIN)[0];
        }
        if (LONE.test(text)) {
            throw new NotJson("a text has half of a pair of surrogates");
        }
        return text;
    }

    /** Behind the backslash. */
    escaped() {
        if (this.meets("u")) {
            return String.fromCharCode(parseInt(this.take(HEX)[0], 16));
        }
        const stands = ESCAPES.get(this.text[this.at] || "");
        if (stands === undefined) {
            throw new NotJson(`place ${this.at + 1} of the line is no escape`);
        }
        this.at += 1;
        return stands;
    }

    number() {
        const [text, whole, decimals = "", power = "0"] = this.take(NUMBER);
        if (!hasDouble(whole + decimals, BigInt(power) - BigInt(decimals.length))) {
            throw new NotJson(`a number at place ${this.at - text.length + 1} is out of range`);
        }
        return new NumberText(text);
    }
}

/** The value of a text.
 * @param {string} text */
export function readJson(text) {
    const reader = new Reader(text);
    const value = reader.value();
    if (reader.at < text.length) {
        throw new NotJson(`from place ${reader.at + 1} of the line on more than a value stands`);
    }
    return value;
}

/** @param {JsonObject} members @param {string} key */
function memberText(members, key) {
    const value = members.get(key);
    return `${JSON.stringify(key)}:${value === undefined ? "" : spelled(value)}`;
}

/** The text of a value as the exchange spells it: no blanks, and keys in order.
 * @param {Json} value @returns {string} */
export function spelled(value) {
    if (value instanceof NumberText) {
        return value.text;
    }
    if (value instanceof Map) {
        const keys = [...value.keys()].sort();
        return `{${keys.map(key => memberText(value, key)).join(",")}}`;
    }
    return Array.isArray(value) ? `[${value.map(spelled).join(",")}]` : JSON.stringify(value);
}
