/*
 * Tests of the JavaScript module, in the folder that ./tablets made: what a page does with it. The last line is 'N passed, M failed'.
 *
 *   node tests/page.mjs FOLDER
 */
import assert from "node:assert/strict";
import { readFileSync } from "node:fs";
import { createServer } from "node:http";
import { dirname, join } from "node:path";
import { fileURLToPath, pathToFileURL } from "node:url";
import { declaredIn, Guarded } from "./guarded.mjs";

const folder = process.argv[2];
const root = dirname(dirname(fileURLToPath(import.meta.url)));
const read = (...names) => new Uint8Array(readFileSync(join(...names)));
const words = (...names) => readFileSync(join(...names), "utf8");
const page = await import(pathToFileURL(join(folder, "rigtemple.js")));
const wasm = read(folder, "rigtemple.wasm");
const header = words(folder, "rigtemple.h");
const types = words(folder, "rigtemple.d.ts");
const stripe = read(root, "cards", "stripe.card");
const maximal = read(root, "cards", "maximal.card");
const jacquard = read(root, "cards", "jacquard.card");
const widest = read(root, "cards", "widest.card");
const english = read(root, "cards", "stripe.en.sheet");
const swedish = read(root, "cards", "stripe.sv.sheet");
const guide = await page.open(wasm);
let passed = 0;
let failed = 0;

async function test(what, body) {
  try {
    await body();
    passed++;
  } catch (error) {
    failed++;
    console.log(`failed: ${what}: ${error.message}`);
  }
}
const atoms = (...numbers) => {
  const set = new Uint8Array(32);
  for (const k of numbers) set[k >> 3] |= 1 << (k & 7);
  return set;
};
/* A sheet with a name for each action, in the order of their numbers. */
const sheetOf = (names) => {
  const parts = names.map((name) => Buffer.from(name));
  const offsets = [2 * names.length + 4];
  for (const part of parts) offsets.push(offsets.at(-1) + part.length);
  const numbers = [names.length, ...offsets].flatMap((number) => [number & 255, number >> 8]);
  return new Uint8Array(Buffer.concat([Buffer.from(numbers), ...parts]));
};

// ---- how it is opened

await test("from bytes, from a buffer and from a module", async () => {
  for (const source of [wasm, wasm.buffer.slice(wasm.byteOffset, wasm.byteOffset + wasm.length), new WebAssembly.Module(wasm)]) {
    assert.equal((await page.open(source)).check(stripe).answer, 0);
  }
});

/* Does something with a server of the folder's files, by its address. */
async function served(body) {
  const server = createServer((request, response) => {
    const name = request.url.slice(1);
    if (!/^[\w.]+$/.test(name) || name === "missing.wasm") return response.writeHead(404).end();
    response.writeHead(200).end(readFileSync(join(folder, name)));
  });
  await new Promise((done) => server.listen(0, "127.0.0.1", done));
  try {
    await body(`http://127.0.0.1:${server.address().port}/`);
  } finally {
    server.closeAllConnections();
    server.close();
  }
}

await test("from a server", () => served(async (at) => {
  assert.equal((await page.open(fetch(at + "rigtemple.wasm"))).check(stripe).name, "done");
  await assert.rejects(page.open(fetch(at + "missing.wasm")), /404/);
}));

/* The lines that begin with the import, of a document: what it shows of a page, as a module's bytes. */
function shown(text, after) {
  const lines = text.slice(text.indexOf("    import { open }")).split("\n");
  const end = lines.findIndex((line) => line !== "" && !line.startsWith("    "));
  const beside = pathToFileURL(join(folder, "rigtemple.js")).href;
  const code = lines.slice(0, end).join("\n").replace('"./rigtemple.js"', JSON.stringify(beside));
  return `data:text/javascript,${encodeURIComponent(code + after)}`;
}

/* What a browser has for the page of docs/API.md: two elements, and a database that outlives the page. `dies` says whether it does
 * before a step is on the disk; every other request is answered later, as in a browser. */
function browser(at) {
  const [held, its] = [new Map(), { shown: {}, made: {}, dies: () => false }];
  const later = (request, event) => (setTimeout(() => request[event]?.()), request);
  const store = () => ({ get: (key) => later({ result: structuredClone(held.get(key)) }, "onsuccess") });
  const step = (_, mode, options) => {
    if (mode === undefined) return { objectStore: store };
    assert.deepEqual([mode, options], ["readwrite", { durability: "strict" }]);
    const begun = {};
    const put = (value, key) => its.dies() || (held.set(key, structuredClone(value)), later(begun, "oncomplete"));
    return Object.assign(begun, { objectStore: () => ({ put }) });
  };
  const made = new Set();
  const database = { createObjectStore: (name) => made.add(name), transaction: step };
  const open = () => {
    const opening = { result: database };
    setTimeout(() => (made.size === 0 && opening.onupgradeneeded(), opening.onsuccess()));
    return opening;
  };
  const fetched = globalThis.fetch;
  const document = { getElementById: (id) => its[id] };
  return { held, its, globals: { indexedDB: { open }, document, fetch: (name) => fetched(at + name) } };
}

/* Does something with other globals. */
async function having(globals, body) {
  const own = Object.fromEntries(Object.keys(globals).map((name) => [name, globalThis[name]]));
  try {
    Object.assign(globalThis, globals);
    await body();
  } finally {
    Object.assign(globalThis, own);
  }
}

let opened = 0;
const reopen = (after = "") => import(shown(words(root, "docs", "API.md"), `\n// ${++opened}\n${after}`));

await test("as docs/API.md and HOW-TO-LINK.txt show it", () => served(async (at) => {
  const { held, its, globals } = browser(at);
  await having(globals, async () => {
    const told = ["none", 0, 512, 257, 513, 258, 256];
    const seen = told.map((last, n) => `last ${n}: ${last}, next ${n < 6 ? `${n + 1}: ${told[n + 1]}` : "rest"}`);
    for (let n = 0; n < 6; n++) {
      await reopen();
      assert.equal(its.shown.textContent, seen[n]);
      its.dies = () => true;
      its.made.onclick();
      await new Promise((done) => setTimeout(done, 5));
      assert.equal(its.shown.textContent, seen[n]);
      its.dies = () => false;
      await reopen();
      assert.equal(its.shown.textContent, seen[n]);
      const touch = its.made.onclick;
      await touch();
      assert.deepEqual([its.shown.textContent, touch === its.made.onclick], [seen[n + 1], false]);
    }
    assert.equal(its.made.onclick, null);
    const one = guide.run(stripe, guide.load(stripe).configuration, 1000).configuration;
    assert.deepEqual(held.get("weaving").place, guide.save(stripe, one).place);
    held.get("weaving").fingerprint ^= 1;
    await assert.rejects(reopen(), /of another card/);
    const { answer, name } = await import(shown(words(folder, "HOW-TO-LINK.txt"), "\nexport { answer, name };"));
    assert.deepEqual([answer, name], [0, "done"]);
  });
}));

// ---- docs/API.md: from a card to a saved place and back

await test("from a card to a saved place and back", () => {
  const loaded = guide.load(stripe);
  assert.deepEqual(loaded, {
    answer: 0,
    name: "done",
    configuration: { ...page.emptyConfiguration(), beliefs: atoms(0, 3), goals: atoms(2) },
  });
  const listed = guide.list(stripe, loaded.configuration);
  assert.deepEqual(listed, { answer: 0, name: "done", choices: [0], judged: 2, openGoals: 1 });
  const taken = guide.take(stripe, loaded.configuration, listed.choices[0]);
  assert.equal(taken.answer, 0);
  assert.deepEqual([taken.configuration.plan[0], taken.configuration.length, taken.configuration.phase], [4, 1, 1]);
  const saved = guide.save(stripe, taken.configuration);
  const head = "335001000100" + "2c0001000000";
  assert.equal(Buffer.from(saved.place).toString("hex"), `${head}09${"00".repeat(15)}04${"00".repeat(15)}04`);
  const restored = guide.restore(stripe, saved.place);
  assert.deepEqual(restored.configuration, taken.configuration);
  const ran = guide.run(stripe, restored.configuration, 1000);
  assert.deepEqual([ran.answer, ran.moves, ran.ending, ran.configuration.phase, ran.configuration.finished], [0, 5, "rest", 2, 1]);
  assert.deepEqual([ran.configuration.beliefs, ran.configuration.goals], [atoms(0, 2), atoms()]);
});

await test("a program of the teaching shed", () => {
  const program = read(root, "cards", "teaching.program");
  const { answer, moves, ending, remaining, configuration } = guide.deliberate(stripe, program, guide.load(stripe).configuration, 1000);
  assert.deepEqual([answer, moves, ending, remaining.length, configuration.finished], [0, 12, "finished", 0, 1]);
  const stopped = guide.deliberate(stripe, program, guide.load(stripe).configuration, 1);
  assert.deepEqual([stopped.ending, stopped.remaining.length > 0], ["spent", true]);
});

await test("what comes next, shown and taken, is one run", () => {
  let c = guide.load(stripe).configuration;
  const told = [];
  for (;;) {
    const { answer, name, coming, choice } = guide.next(stripe, c);
    assert.deepEqual([answer, name], [0, "done"]);
    told.push([coming, choice]);
    if (coming !== "move") break;
    c = guide.restore(stripe, guide.save(stripe, guide.take(stripe, c, choice).configuration).place).configuration;
  }
  const steps = [0, 512, 257, 513, 258, 256].map((choice) => ["move", choice]);
  assert.deepEqual(told, [...steps, ["rest", 0]]);
  assert.deepEqual(c, guide.run(stripe, guide.load(stripe).configuration, 1000).configuration);
});

await test("a move that does not fit", () => {
  const c = { ...page.emptyConfiguration(), beliefs: atoms(3), plan: new Uint8Array(1024).fill(3), length: 1024 };
  assert.deepEqual(guide.next(stripe, c), { answer: 0, name: "done", coming: "full", choice: 513 });
});

await test("a program that is cut after each move, saved, restored and gone on with is one", () => {
  const program = read(root, "cards", "teaching.program");
  const first = guide.load(stripe).configuration;
  let [c, numbers, moves] = [first, Uint8Array.of(program.length / 4 - 1), 0];
  for (let made = 1; made < 16; made++) {
    const { moves: one, ...gone } = guide.goOn(stripe, program, numbers, c, 1);
    const { moves: all, ...whole } = guide.deliberate(stripe, program, first, made);
    moves += one;
    assert.deepEqual([gone, moves], [whole, all]);
    numbers = gone.remaining;
    c = guide.restore(stripe, guide.save(stripe, gone.configuration).place).configuration;
  }
  assert.deepEqual([moves, numbers.length, c.finished], [12, 0, 1]);
});

await test("a verdict", () => {
  assert.deepEqual(guide.grade(stripe), { answer: 0, name: "done", verdict: "bounded", offender: "none", number: 0 });
});

await test("a text, and back", () => {
  const made = guide.text(read(root, "cards", "stripe.text"));
  assert.deepEqual([made.name, made.place, guide.check(made.card).answer], ["done", 0, 0]);
  assert.deepEqual(guide.print(stripe, 4), { answer: 0, name: "done", text: "B1&!B3" });
});

// ---- docs/API.md: names

await test("names in two languages", () => {
  const named = (shed, action) => {
    const { sheet, start, length, text, ...rest } = guide.name(stripe, shed, english, action);
    assert.deepEqual(rest, { answer: 0, name: "done", bytes: new Uint8Array(Buffer.from(text)) });
    return [sheet, start, length, text];
  };
  assert.deepEqual(named(swedish, 0), ["shed", 14, 4, "väv"]);
  assert.deepEqual(named(swedish, 2), ["master", 23, 6, "repair"]);
  for (const none of [null, undefined, new Uint8Array()]) assert.deepEqual(named(none, 0), ["master", 14, 5, "weave"]);
  assert.deepEqual([english, swedish], [sheetOf(["weave", "wind", "repair", "pick", "stripe"]), sheetOf(["väv", "spola", "", "inslag", ""])]);
});

await test("every character of a name is in its text", () => {
  const names = ["\uFEFFmark", "a\0b", "\uFFFF\u{10FFFF}", "\uFEFF", "\uFFFD"];
  const master = sheetOf(names);
  names.forEach((name, action) => assert.equal(guide.name(stripe, null, master, action).text, name));
});

await test("a name that is refused, and which sheet", () => {
  const none = { start: 0, length: 0, bytes: new Uint8Array(), text: "" };
  const [cut, other] = [english.slice(0, -1), sheetOf(["one"])];
  const sheet = { answer: 20, name: "sheet", ...none };
  assert.deepEqual(guide.name(stripe, cut, other, 9), { ...sheet, sheet: "shed" });
  assert.deepEqual(guide.name(stripe, swedish, cut, 9), { ...sheet, sheet: "master" });
  assert.deepEqual(guide.name(stripe, english, swedish, 0), { ...sheet, sheet: "master" });
  assert.deepEqual(guide.name(stripe, swedish, english, 5), { answer: 21, name: "no action", sheet: "master", ...none });
  assert.deepEqual(guide.name(new Uint8Array(), cut, cut, 9), { answer: 1, name: "short", sheet: "master", ...none });
});

// ---- refusals, by name

await test("refusals have their names", () => {
  const c = guide.load(stripe).configuration;
  assert.deepEqual(guide.check(read(root, "cards", "loop.card")), { answer: 6, name: "node" });
  assert.deepEqual(guide.check(new Uint8Array()), { answer: 1, name: "short" });
  assert.deepEqual(guide.load(new Uint8Array(64)), { answer: 2, name: "mark", configuration: page.emptyConfiguration() });
  assert.deepEqual(guide.grade(new Uint8Array()), { answer: 1, name: "short", verdict: "open", offender: "initial plan", number: 0 });
  assert.deepEqual(guide.take(stripe, c, page.NO_CHOICE), { answer: 14, name: "no rule", configuration: c, node: 0 });
  assert.deepEqual(guide.take(stripe, c, page.choice("revision", 0)), { answer: 15, name: "front", configuration: c, node: 0 });
  const nothing = { choices: [], judged: 0, openGoals: 0 };
  assert.deepEqual(guide.list(stripe, { ...c, phase: 3 }), { answer: 13, name: "configuration", ...nothing });
  assert.deepEqual(guide.list(stripe, c, 0), { answer: 12, name: "no room", ...nothing });
  assert.deepEqual(guide.save(stripe, c, 43), { answer: 12, name: "no room", place: new Uint8Array() });
  assert.deepEqual(guide.restore(stripe, stripe), { answer: 2, name: "mark", configuration: page.emptyConfiguration() });
  assert.deepEqual(guide.text(new TextEncoder().encode("atoms x")), { answer: 17, name: "text", card: new Uint8Array(), place: 6 });
  assert.deepEqual(guide.print(stripe, 999), { answer: 7, name: "rule", text: "" });
  assert.deepEqual(guide.next(stripe, { ...c, phase: 3 }), { answer: 13, name: "configuration", coming: "rest", choice: 0 });
});

// ---- editions

await test("a card of edition 2, its place, and that place under a card of edition 1", () => {
  const begun = guide.load(jacquard).configuration;
  assert.deepEqual([begun.beliefs, begun.goals], [atoms(), atoms(255)]);
  const half = guide.run(jacquard, begun, 9);
  assert.deepEqual([half.answer, half.moves, half.ending], [0, 9, "spent"]);
  const { answer, place } = guide.save(jacquard, half.configuration);
  assert.deepEqual([answer, place.length, place[2], place[6]], [0, 76 + half.configuration.length, 2, 76]);
  assert.deepEqual(guide.restore(jacquard, place), { answer: 0, name: "done", configuration: half.configuration });
  assert.deepEqual(guide.restore(stripe, place), { answer: 2, name: "mark", configuration: page.emptyConfiguration() });
  const done = guide.run(jacquard, guide.restore(jacquard, place).configuration, 1000);
  assert.deepEqual([done.moves, done.ending, done.configuration.goals], [7, "rest", atoms()]);
  assert.equal(done.configuration.beliefs[31], 128);
  assert.equal(guide.print(jacquard, 4).text, "B196&B197");
});

await test("an atom from 128 on is unknown to a card of edition 1", () => {
  for (const atom of [128, 200, 255]) {
    const c = { ...guide.load(stripe).configuration, beliefs: atoms(0, atom) };
    assert.deepEqual(guide.next(stripe, c), { answer: 13, name: "configuration", coming: "rest", choice: 0 });
  }
});

await test("a program is refused, and so are numbers that it cannot have left", () => {
  const c = guide.load(stripe).configuration;
  const [none, execute] = [new Uint8Array(), new Uint8Array(8)];
  const refused = { answer: 19, name: "program", configuration: c, moves: 0, ending: "spent", remaining: none };
  assert.deepEqual(guide.deliberate(stripe, stripe, c, 5), refused);
  assert.deepEqual(guide.goOn(stripe, stripe, none, c, 5), refused);
  for (const numbers of [[2], [255], [1, 0], [0, 2], [0, 0, 0], new Uint8Array(300)]) {
    assert.deepEqual(guide.goOn(stripe, execute, Uint8Array.from(numbers), c, 5), refused);
  }
  for (const numbers of [[], [0], [1], [0, 1], [0, 0]]) {
    const kept = guide.goOn(stripe, execute, Uint8Array.from(numbers), c, 0);
    assert.deepEqual([kept.answer, kept.ending, [...kept.remaining]], [0, "spent", numbers]);
  }
  assert.equal(guide.goOn(stripe, execute, none, c, 1).ending, "finished");
});

await test("a false condition is told with its node", () => {
  const c = guide.load(stripe).configuration;
  const planned = guide.take(stripe, guide.take(stripe, c, 0).configuration, page.choice("revision", 0)).configuration;
  const acted = guide.take(stripe, planned, page.choice("action", 1)).configuration;
  const closed = guide.take(stripe, acted, page.choice("revision", 2));
  assert.deepEqual([closed.answer, closed.name, closed.node], [16, "condition", 2]);
  assert.deepEqual(closed.configuration, acted);
});

await test("the names are docs/API.md's, and no number has another", () => {
  const rows = words(root, "docs", "API.md").matchAll(/^\| (\d+) \| ([a-z ]+) \| /gm);
  const table = new Map([...rows].map(([, n, name]) => [Number(n), name]));
  for (let n = 0; n < 30; n++) assert.equal(page.answerName(n), table.get(n) ?? "no answer of the guide");
});

// ---- what is handed in and answered

await test("nothing that is handed in is changed, and an answer has bytes of its own", () => {
  const card = stripe.slice();
  const first = guide.load(card).configuration;
  const kept = structuredClone(first);
  const taken = guide.take(card, first, 0).configuration;
  const copy = structuredClone(taken);
  guide.run(card, taken, 1000);
  assert.deepEqual([card, first, taken], [stripe, kept, copy]);
  const [shed, master] = [swedish.slice(), english.slice()];
  const named = guide.name(card, shed, master, 0);
  guide.name(card, null, master, 1);
  named.bytes.fill(0);
  assert.deepEqual([card, shed, master, guide.name(card, shed, master, 0).text], [stripe, swedish, english, "väv"]);
});

await test("what is no bytes or no such number throws", () => {
  const c = guide.load(stripe).configuration;
  for (const bad of [undefined, null, "card", [51, 65], new ArrayBuffer(64), new Uint16Array(64)]) {
    assert.throws(() => guide.check(bad), TypeError);
    assert.throws(() => guide.list(stripe, { ...c, plan: bad }), TypeError);
    assert.throws(() => guide.deliberate(stripe, bad, c, 1), TypeError);
    assert.throws(() => guide.goOn(stripe, bad, stripe, c, 1), TypeError);
    assert.throws(() => guide.goOn(stripe, stripe, bad, c, 1), TypeError);
    assert.throws(() => guide.next(bad, c), TypeError);
    assert.throws(() => guide.name(stripe, swedish, bad, 0), TypeError);
    if (bad != null) assert.throws(() => guide.name(stripe, bad, english, 0), TypeError);
  }
  for (const bytes of [0, 16, 31, 33]) {
    assert.throws(() => guide.list(stripe, { ...c, beliefs: new Uint8Array(bytes) }), RangeError);
    assert.throws(() => guide.list(stripe, { ...c, goals: new Uint8Array(bytes) }), RangeError);
  }
  assert.throws(() => guide.list(stripe, { ...c, plan: new Uint8Array(1025) }), RangeError);
  for (const bad of [-1, 1.5, 65536, NaN, "1", undefined, 1n]) {
    assert.throws(() => guide.take(stripe, c, bad), RangeError);
    assert.throws(() => guide.run(stripe, c, bad), RangeError);
    assert.throws(() => guide.deliberate(stripe, stripe, c, bad), RangeError);
    assert.throws(() => guide.goOn(stripe, stripe, stripe, c, bad), RangeError);
    assert.throws(() => guide.next(stripe, { ...c, length: bad }), RangeError);
    assert.throws(() => guide.print(stripe, bad), RangeError);
    assert.throws(() => guide.name(stripe, swedish, english, bad), RangeError);
    assert.throws(() => guide.save(stripe, { ...c, finished: bad }), RangeError);
  }
  assert.throws(() => guide.run(stripe, { ...c, phase: 256 }, 1), RangeError);
  assert.throws(() => guide.check(), TypeError);
});

await test("codes of choices", () => {
  assert.deepEqual([page.choice("selection", 0), page.choice("action", 7), page.choice("revision", 255)], [0, 263, 767]);
  assert.deepEqual([page.choice("action", 256), page.choice("action", -1), page.choice("rest", 0)], [65535, 65535, 65535]);
  assert.deepEqual([page.kindOf(263), page.numberOf(263), page.kindOf(768)], ["action", 7, undefined]);
});

// ---- memory

await test("one page of memory is enough for the largest card of edition 1, and a long text gets more", () => {
  const instance = new WebAssembly.Instance(new WebAssembly.Module(wasm));
  const small = page.guideOf(instance);
  const full = small.load(maximal).configuration;
  const program = new Uint8Array(512);
  for (const asked of [
    small.check(maximal), small.grade(maximal), small.list(maximal, full), small.take(maximal, full, 0), small.run(maximal, full, 1000),
    small.next(maximal, full), small.deliberate(maximal, program, full, 10), small.goOn(maximal, program, new Uint8Array(128), full, 10),
    small.save(maximal, full), small.restore(maximal, small.save(maximal, full).place), small.print(maximal, 0),
    small.text(read(root, "cards", "stripe.text")), small.name(stripe, swedish, english, 0),
  ]) {
    assert.ok([0, 14, 15, 16].includes(asked.answer), asked.name);
  }
  assert.equal(instance.exports.memory.buffer.byteLength, 65536);
  const long = Buffer.concat([read(root, "cards", "stripe.text"), Buffer.from(`# ${"x".repeat(300000)}\n`)]);
  assert.deepEqual(small.text(new Uint8Array(long)).card, small.text(read(root, "cards", "stripe.text")).card);
  assert.ok(instance.exports.memory.buffer.byteLength > 300000);
});

await test("the largest card takes a second page and no third", () => {
  const instance = new WebAssembly.Instance(new WebAssembly.Module(wasm));
  const large = page.guideOf(instance);
  assert.equal(widest.length, page.MOST_CARD_BYTES);
  const c = large.load(widest).configuration;
  const asked = [large.check(widest), large.run(widest, c, 1000), large.list(widest, c), large.save(widest, c)];
  assert.deepEqual(asked.map(({ answer }) => answer), [0, 0, 0, 0]);
  assert.equal(asked[1].ending, "rest");
  assert.equal(instance.exports.memory.buffer.byteLength, 2 * 65536);
});

await test("two sheets of the most bytes get memory", () => {
  const instance = new WebAssembly.Instance(new WebAssembly.Module(wasm));
  const large = page.guideOf(instance);
  const names = Array.from({ length: 256 }, (_, i) => `${i}`.padEnd(i < 255 ? 254 : 249, "x"));
  const own = names.map((name, i) => (i % 2 === 0 ? `shed's ${name}`.padEnd(name.length + names[i + 1].length, "y") : ""));
  const [shed, master] = [sheetOf(own), sheetOf(names)];
  assert.deepEqual([shed.length, master.length], [page.MOST_SHEET_BYTES, page.MOST_SHEET_BYTES]);
  for (const action of [0, 1, 254, 255]) {
    const { answer, sheet, text } = large.name(maximal, shed, master, action);
    assert.deepEqual([answer, sheet, text], [0, own[action] ? "shed" : "master", own[action] || names[action]]);
  }
  assert.equal(large.name(maximal, new Uint8Array(page.MOST_SHEET_BYTES + 1), master, 0).answer, 20);
  assert.ok(instance.exports.memory.buffer.byteLength > maximal.length + 2 * page.MOST_SHEET_BYTES);
});

await test("what a guide does leaves nothing in another", async () => {
  const [one, other] = [await page.open(wasm), await page.open(wasm)];
  const moved = one.run(stripe, one.load(stripe).configuration, 3);
  assert.deepEqual(other.run(stripe, other.load(stripe).configuration, 3), moved);
});

// ---- that nothing is left out

await test("the header's version and sizes", () => {
  assert.equal(page.VERSION, header.match(/#define RIGTEMPLE_VERSION "(.*)"/)[1]);
  for (const [, name, value] of header.matchAll(/^#define RIGTEMPLE_(SET_BYTES|MOST_\w+|NO_CHOICE) (\d+)/gm)) {
    assert.equal(page[name], Number(value), name);
    assert.match(types, new RegExp(`const ${name}: ${value};`));
  }
});

await test("a call for each function of the header, and its type", () => {
  const own = (name) => name.slice("rigtemple_4_".length, -"_parts".length).replace(/_(.)/g, (_, letter) => letter.toUpperCase());
  // the module's list is the header's list_looks
  const wanted = Object.keys(declaredIn(header)).map(own).filter((name) => name !== "listLooks");
  assert.deepEqual(Object.keys(guide).sort(), wanted.sort());
  const [, body] = types.match(/export interface Guide \{([^}]*)\}/);
  assert.deepEqual([...body.matchAll(/^ {2}(\w+)\(/gm)].map(([, name]) => name).sort(), wanted);
});

await test("what is exported has a type", () => {
  const typed = [...types.matchAll(/^export declare (?:const|function) (\w+)/gm)].map(([, name]) => name);
  assert.deepEqual(typed.sort(), Object.keys(page).sort());
  for (const [name, list] of [["Kind", page.KINDS], ["Ending", page.ENDINGS], ["Coming", page.COMINGS],
    ["DeliberationEnding", page.DELIBERATION_ENDINGS], ["Verdict", page.VERDICTS], ["Offender", page.OFFENDERS], ["Sheet", page.SHEETS]]) {
    assert.ok(types.includes(`export type ${name} = ${list.map((word) => `"${word}"`).join(" | ")};`), name);
  }
});

await test("rigtemple.wasm asks for nothing, and has the header's functions", () => {
  const module = new WebAssembly.Module(wasm);
  assert.deepEqual(WebAssembly.Module.imports(module), []);
  const functions = WebAssembly.Module.exports(module).filter(({ kind }) => kind === "function").map(({ name }) => name);
  assert.deepEqual(functions.sort(), Object.keys(declaredIn(header)).sort());
});

// ---- controls: what is watched for is seen

function watched() {
  return new Guarded(new WebAssembly.Instance(new WebAssembly.Module(wasm)), header, 1);
}

await test("a byte written outside what is lent is seen", () => {
  const guarded = watched();
  const own = guarded.own;
  guarded.own = {
    ...own,
    rigtemple_4_list_looks_parts(...given) {
      const answer = own.rigtemple_4_list_looks_parts(...given);
      new Uint8Array(own.memory.buffer)[given[8] + 2 * Number(given[9])] = 0;
      return answer;
    },
  };
  const spoiled = page.guideOf(guarded);
  const c = spoiled.load(stripe).configuration;
  assert.throws(() => spoiled.list(stripe, c), /wrote outside what it was lent/);
});

await test("parts that overlap, or are not aligned, are seen", () => {
  const guarded = watched();
  const at = guarded.heap + 1000 - (guarded.heap % 8);
  assert.throws(() => guarded.exports.rigtemple_4_grade_parts(at, 100n, at + 99, at + 200, at + 208), /overlaps/);
  assert.throws(() => guarded.exports.rigtemple_4_grade_parts(at, 100n, at + 104, at + 200, at + 207), /not aligned/);
  assert.throws(() => guarded.exports.rigtemple_4_grade_parts(0, 100n, at + 104, at + 200, at + 208), /outside the memory/);
});

console.log(`${passed} passed, ${failed} failed`);
process.exit(failed === 0 ? 0 : 1);
