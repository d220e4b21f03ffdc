/*
 * The drill over the JavaScript module: reads requests on standard input until the input ends, and writes an answer for each, as
 * tests/header_drill.c does, whose head has both. The module is asked over watched functions (tests/guarded.mjs), and all that it may
 * lend is filled with EE hex before each call: of a lent buffer what the module answers is written first, then what lies behind it in
 * memory. A request that breaks the rules, and whatever a call leaves wrong that no answer shows, ends the program.
 *
 *   node tests/page_drill.mjs FOLDER [--stack]
 *
 * FOLDER is one that ./tablets made. --stack writes no answers, but a line for each function: its name and the deepest bytes of stack.
 */
import { readFileSync, writeSync } from "node:fs";
import { pathToFileURL } from "node:url";
import { join } from "node:path";
import { Guarded } from "./guarded.mjs";

const [folder, option] = process.argv.slice(2);
const page = await import(pathToFileURL(join(folder, "rigtemple.js")));
const header = readFileSync(join(folder, "rigtemple.h"), "utf8");
const module = new WebAssembly.Module(readFileSync(join(folder, "rigtemple.wasm")));
const PAGES = 4; // enough for the largest request
const guarded = new Guarded(new WebAssembly.Instance(module), header, PAGES);
const guide = page.guideOf(guarded);
const LENT = 0xee;

// ---- requests in, answers out

const input = readFileSync(0);
let at = 0;
const out = [];

function getBytes(count) {
  if (at + count > input.length) end(1);
  at += count;
  return new Uint8Array(input.subarray(at - count, at));
}
function getNumber(most = 65535, bytes = 2) {
  const value = getBytes(bytes).reduceRight((sum, byte) => 256 * sum + byte, 0);
  if (value > most) end(1);
  return value;
}
function getImage() {
  const c = page.emptyConfiguration();
  c.beliefs = getBytes(32);
  c.goals = getBytes(32);
  c.length = getNumber();
  c.phase = getNumber(255, 1);
  c.finished = getNumber();
  c.plan.set(getBytes(getNumber(1024)));
  return c;
}

function put(bytes) {
  out.push(Buffer.from(bytes));
}
function putNumber(value, bytes = 2) {
  put(Array.from({ length: bytes }, (_, i) => Math.floor(value / 256 ** i) % 256));
}
function putImage(c) {
  const last = c.plan.findLastIndex((action) => action !== 0);
  put(c.beliefs);
  put(c.goals);
  putNumber(c.length);
  putNumber(c.phase, 1);
  putNumber(c.finished);
  putNumber(last + 1);
  put(c.plan.subarray(0, last + 1));
}
/* A lent buffer: what the module answers, and what lies behind it. */
function putLent(answered, name) {
  put(answered);
  put(guarded.lent[name].subarray(answered.length));
}
/* The number that a word of an answer stands for. */
function putWord(words, word) {
  const value = words.indexOf(word);
  if (value < 0) end(3);
  putNumber(value, 1);
}

function end(status) {
  const all = Buffer.concat(out);
  for (let done = 0; option === undefined && done < all.length; ) done += writeSync(1, all, done);
  process.exit(status);
}

// ---- the calls

let card = new Uint8Array();

/* What a deliberation answers. Behind the numbers that remain all is 0 if it is done, and as it was lent if it is refused. */
function putDeliberated({ answer, configuration, moves, ending, remaining }) {
  const behind = answer === 0 ? 0 : LENT;
  if (guarded.lent.remaining.subarray(remaining.length).some((byte) => byte !== behind)) end(3);
  putNumber(answer);
  putImage(configuration);
  putNumber(moves);
  putWord(page.DELIBERATION_ENDINGS, ending);
  putNumber(remaining.length);
  put(remaining);
}

const requests = {
  0() {
    card = getBytes(getNumber());
  },
  1() {
    putNumber(guide.check(card).answer);
  },
  2() {
    const { answer, configuration } = guide.load(card);
    putNumber(answer);
    putImage(configuration);
  },
  3() {
    const { answer, verdict, offender, number } = guide.grade(card);
    putNumber(answer);
    if (answer !== 0) return put([0, 0, 0, 0]);
    putWord(page.VERDICTS, verdict);
    putWord(page.OFFENDERS, offender);
    putNumber(number);
  },
  4() {
    const { answer, choices, judged, openGoals } = guide.list(card, getImage(), getNumber(1024));
    putNumber(answer);
    putNumber(choices.length);
    putNumber(judged);
    putNumber(openGoals);
    putLent(new Uint8Array(Uint16Array.from(choices).buffer), "list");
  },
  5() {
    const { answer, node, configuration } = guide.take(card, getImage(), getNumber());
    putNumber(answer);
    putNumber(node);
    putImage(configuration);
  },
  6() {
    const { answer, configuration, moves, ending } = guide.run(card, getImage(), getNumber());
    putNumber(answer);
    putImage(configuration);
    putNumber(moves);
    putWord(page.ENDINGS, ending);
  },
  7() {
    const c = getImage();
    const { answer, place } = guide.save(card, c, getNumber(2048));
    if (place.length !== (answer === 0 ? (card[2] === 2 ? 76 : 44) + c.length : 0)) end(3);
    putNumber(answer);
    putLent(place, "place");
  },
  8() {
    const { answer, configuration } = guide.restore(card, getBytes(getNumber(4096)));
    putNumber(answer);
    putImage(configuration);
  },
  9() {
    const { answer, card: made, place } = guide.text(getBytes(getNumber(65536, 4)), getNumber(24200));
    putNumber(answer);
    putNumber(place, 4);
    putNumber(made.length);
    putLent(made, "card");
  },
  10() {
    const { answer, text } = guide.print(card, getNumber(), getNumber(2048));
    putNumber(answer);
    putNumber(text.length);
    putLent(Buffer.from(text, "latin1"), "text");
  },
  11() {
    putDeliberated(guide.deliberate(card, getBytes(getNumber(1024)), getImage(), getNumber()));
  },
  12() {
    const [shed, master] = [getBytes(getNumber()), getBytes(getNumber())];
    const { answer, sheet, start, length, bytes, text } = guide.name(card, shed, master, getNumber());
    const held = answer === 0 && sheet === "shed" ? shed : master;
    if (bytes.length !== length || Buffer.compare(bytes, held.subarray(start, start + length)) !== 0) end(3);
    if (Buffer.compare(Buffer.from(text), bytes) !== 0) end(3);
    putNumber(answer);
    putWord(page.SHEETS, sheet);
    putNumber(start);
    putNumber(length);
  },
  13() {
    const { answer, node, configuration } = guide.takeBounded(card, getImage(), getNumber());
    putNumber(answer);
    putNumber(node);
    putImage(configuration);
  },
  14() {
    const { answer, configuration, moves, ending } = guide.runBounded(card, getImage(), getNumber());
    putNumber(answer);
    putImage(configuration);
    putNumber(moves);
    putWord(page.BOUNDED_ENDINGS, ending);
  },
  21() {
    putDeliberated(guide.goOn(card, getBytes(getNumber(1024)), getBytes(getNumber(512)), getImage(), getNumber()));
  },
  22() {
    const { answer, coming, choice } = guide.next(card, getImage());
    if (answer !== 0 && coming !== "rest") end(3);
    putNumber(answer);
    putWord(page.COMINGS, answer === 0 ? coming : "move");
    putNumber(choice);
  },
};

while (at < input.length) {
  const request = requests[getNumber(255, 1)] ?? end(1);
  guarded.bytes.fill(LENT, guarded.heap, guarded.arena);
  request();
}
if (option === "--stack") for (const [name, bytes] of Object.entries(guarded.stack)) console.log(`${name} ${bytes}`);
end(0);
