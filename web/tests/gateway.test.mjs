// Lines that are sent until they are answered, also after the page was loaded anew.
import {Feed, keep, keptLines, send} from "../page/gateway.mjs";
import assert from "node:assert";
import {test} from "node:test";
import {webcrypto} from "node:crypto";

/* global global */
const stored = new Map();
global.sessionStorage = {
    getItem: key => stored.has(key) ? stored.get(key) : null,
    setItem: (key, value) => stored.set(key, value),
};
if (global.crypto === undefined) {
    global.crypto = webcrypto;
}
// What the gateway answers next; null where nobody does.
let answers = [];
const sent = [];
global.fetch = async (path, {body, headers}) => {
    sent.push([headers["Idempotency-Key"], body]);
    const [status, told] = answers.shift() || [0, null];
    if (told === null) {
        throw new TypeError("Failed to fetch");
    }
    return {status, json: async () => told};
};
const refused = (status, reason) => [status, {reason, reply: "gateway", told: reason}];
const answered = [200, {reply: {reply: "placed", order: 1}}];
const nothing = () => {};
const linesOf = name => keptLines(name).map(kept => kept.line);

test("each line without an answer is kept, whatever is sent beside it", async () => {
    const [first, second] = [keep("ana", "open,1"), keep("ana", "open,2")];
    assert.deepStrictEqual(linesOf("ana"), ["open,1", "open,2"]);
    answers = [answered];
    await send("ana", second, nothing);
    assert.deepStrictEqual(linesOf("ana"), ["open,1"]);
    assert.deepStrictEqual(linesOf("ben"), []);
    const [again] = keptLines("ana");
    answers = [answered];
    await send("ana", again, nothing);
    assert.deepStrictEqual(linesOf("ana"), []);
    assert.deepStrictEqual(sent.slice(-2).map(([key]) => key), [second.key, first.key]);
});

test("what may count is sent on where too much is asked, and counts once", async () => {
    const kept = keep("ana", "open,3");
    answers = [[0, null], refused(429, "Often"), refused(503, "Unanswered"), answered];
    const reply = await send("ana", kept, nothing);
    assert.strictEqual(reply.reply, "placed");
    assert.deepStrictEqual(sent.slice(-4), Array(4).fill([kept.key, "open,3"]));
    assert.deepStrictEqual(linesOf("ana"), []);
});

test("what may count outlasts a login that ended", async () => {
    const kept = keep("ana", "open,4");
    answers = [[0, null], refused(401, "Login")];
    await assert.rejects(send("ana", kept, nothing), /Login/);
    assert.deepStrictEqual(linesOf("ana"), ["open,4"]);
    answers = [answered];
    await send("ana", keptLines("ana")[0], nothing);
    assert.deepStrictEqual(linesOf("ana"), []);
});

test("what was refused at once is kept no more", async () => {
    for (const reason of ["Login", "Form", "NotAllowed"]) {
        answers = [refused(400, reason)];
        await assert.rejects(send("ana", keep("ana", "open,5"), nothing));
        assert.deepStrictEqual(linesOf("ana"), []);
    }
});

const sockets = [];

test("a line whose answer is lost without a word is sent again", async given => {
    const [later, answer, begun] = [setTimeout, global.fetch, sent.length];
    given.mock.method(global, "setTimeout", (go, wait) => later(go, wait === 60000 ? 5 : wait));
    let asked = 0;
    // What is asked first is answered by nobody.
    given.mock.method(global, "fetch", (path, more) => {
        asked += 1;
        return asked > 1 ? answer(path, more)
            : new Promise((_, end) => more.signal.addEventListener("abort", end));
    });
    answers = [answered];
    const reply = await send("ana", keep("ana", "open,6"), nothing);
    assert.strictEqual(reply.reply, "placed");
    assert.deepStrictEqual([linesOf("ana"), asked, sent.length - begun], [[], 2, 1]);
});

/** Stands for a connection, of which none says anything by itself. */
class Silent {
    constructor(place) {
        this.place = `${place}`;
        this.heard = {};
        sockets.push(this);
    }

    addEventListener(name, take) {
        this.heard[name] = take;
    }

    close() {
        this.heard.close();
    }
}

test("a feed that says nothing is lost, and begun anew where it was", () => {
    const [states, looks, before] = [[], [], {setInterval, clearInterval, setTimeout}];
    const now = Date.now;
    Object.assign(global, {
        WebSocket: Silent,
        location: {href: "http://127.0.0.1:8000/#market"},
        setInterval: look => looks.push(look) - 1,
        clearInterval: at => looks.fill(null, at, at + 1),
        setTimeout: go => go(),
    });
    let time = 0;
    Date.now = () => time;
    try {
        const feed = new Feed(nothing, isThere => states.push(isThere));
        for (time = 0; time < 200000; time += 20000) {
            sockets[0].heard.message({data: '{"at":7,"events":[]}'});
            looks[0]();
        }
        assert.strictEqual(sockets.length, 1);
        time += 50000;
        looks[0]();
        assert.deepStrictEqual([sockets.length, looks[0]], [2, null]);
        assert.strictEqual(sockets[1].place, "ws://127.0.0.1:8000/feed?since=7");
        assert.deepStrictEqual([feed.at, states.pop()], [7, false]);
    } finally {
        Date.now = now;
        Object.assign(global, before);
    }
});
