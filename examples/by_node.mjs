/*
 * A weaving guide in a terminal, which loses no pick, over the page's module: node by_node.mjs FOLDER CARD KEPT [PROGRAM]
 *
 * FOLDER is the one that ./tablets makes. A page does the same with what it has for a file and a screen: docs/API.md, "On a tablet".
 *
 * The same app is written in C, Rust, Python and JavaScript, and each goes on from another's file.
 *
 * It shows the last move done and, behind it, what comes next: `last: none` or `last: 1 select 0`,
 * and `next: 2 revise 0` or, if that is all, `end: ` and rest, full, finished, stuck or idle. By
 * itself the guide tells what comes next, with PROGRAM the shed's own deliberation.
 * It reads a line with the number of the move that the weaver has made: that is when it is taken,
 * kept, and the one after it shown. Another line, such as a second touch of one screen, changes
 * nothing. The end of the input is the turn of the screen: it goes on then from the file KEPT.
 * It keeps one file, replaced in one step; numbers have their low byte first:
 *     4 bytes    the card's fingerprint: another card's place is not gone on with
 *     4          how many moves are done: two moves in a row may be alike
 *     2          the code of the last one, 65535 where none is done
 *     2, 2       how many bytes the program has, 0 for no program, and how many numbers remain
 *     those      the program, the numbers
 *     the rest   the place
 * What is refused of it is told and left as it is. Without a file the card begins.
 */
import { closeSync, fsyncSync, openSync, readFileSync, renameSync, writeSync } from "node:fs";
import { dirname, join, resolve } from "node:path";
import { createInterface } from "node:readline";
import { pathToFileURL } from "node:url";

const HEAD_BYTES = 14;
const MOST_IDLE = 1000;
const [folder, cardName, keptName, programName] = process.argv.slice(2);
if (keptName === undefined) throw new Error("usage: node by_node.mjs FOLDER CARD KEPT [PROGRAM]");
const { open, NO_CHOICE } = await import(pathToFileURL(resolve(folder, "rigtemple.js")).href);
const read = (name) => new Uint8Array(readFileSync(name));
const guide = await open(read(join(folder, "rigtemple.wasm")));
const card = read(cardName);

/* What a call answered, if it is done. */
function done(what, answered) {
  if (answered.answer !== 0) throw new Error(`${what} is refused: ${answered.name}`);
  return answered;
}

// ---- what is kept: a weaving is { moves, last, program, numbers, configuration }, with no program and no numbers where there are none

/* The card's fingerprint: FNV-1a of 32 bits. */
const fingerprint = () => card.reduce((sum, byte) => Math.imul(sum ^ byte, 16777619), 2166136261) >>> 0;

const placeOf = (configuration) => done("the save", guide.save(card, configuration)).place;

/* Puts bytes in a file's stead in one step: they are written beside it, and then renamed. */
function replace(name, bytes) {
  const file = openSync(`${name}.beside`, "w");
  for (let at = 0; at < bytes.length; ) at += writeSync(file, bytes, at);
  fsyncSync(file);
  closeSync(file);
  renameSync(`${name}.beside`, name); // dies before it: the file is the former one; after it: the new one
  const within = openSync(dirname(name), "r");
  fsyncSync(within);
  closeSync(within);
}

function keep(w) {
  const head = Buffer.alloc(HEAD_BYTES);
  head.writeUInt32LE(fingerprint(), 0);
  head.writeUInt32LE(w.moves, 4);
  [w.last, w.program.length, w.numbers.length].forEach((number, i) => head.writeUInt16LE(number, 8 + 2 * i));
  replace(keptName, Buffer.concat([head, w.program, w.numbers, placeOf(w.configuration)]));
}

/* The weaving that was kept: the program too is that one. */
function restore(kept) {
  if (kept.length < HEAD_BYTES) throw new Error("what was kept is cut off");
  if (kept.readUInt32LE(0) !== fingerprint()) throw new Error("what was kept is of another card");
  const [moves, last] = [kept.readUInt32LE(4), kept.readUInt16LE(8)];
  const start = HEAD_BYTES + kept.readUInt16LE(10);
  const end = start + kept.readUInt16LE(12);
  if (kept.length < end || (moves !== 0 && last >= 768)) throw new Error("what was kept is cut off, or is no such file");
  const [program, numbers, place] = [[HEAD_BYTES, start], [start, end], [end]].map((part) => new Uint8Array(kept.subarray(...part)));
  return { moves, last, program, numbers, configuration: done("the kept place", guide.restore(card, place)).configuration };
}

/* Begins the card: at first the program's last entry remains, which is the whole. It is kept before anything is shown, so that a folder
 * that cannot be written is told before anything is woven. */
function load() {
  const { configuration } = done("the card", guide.load(card));
  const program = programName === undefined ? new Uint8Array() : read(programName);
  const numbers =
    programName === undefined ? new Uint8Array() : done("the program", guide.deliberate(card, program, configuration, 0)).remaining;
  const w = { moves: 0, last: NO_CHOICE, program, numbers, configuration };
  keep(w);
  return w;
}

/* The weaving to go on with: the kept one, or the card's first where there is no file. */
function begin() {
  let kept;
  try {
    kept = readFileSync(keptName);
  } catch (error) {
    if (error.code === "ENOENT") return load();
    throw error;
  }
  return restore(kept);
}

// ---- what comes next

/* The code of the move that a program made: the first of the list that leaves the same. */
function made(before, after) {
  const leaves = (choice) => {
    const taken = guide.take(card, before, choice);
    return taken.answer === 0 && Buffer.compare(placeOf(taken.configuration), placeOf(after)) === 0;
  };
  return done("the list", guide.list(card, before)).choices.find(leaves);
}

/* The guide's own: { choice }, and nothing is made; or how the card ends. */
function nextOfGuide(w) {
  const { coming, choice } = done("what comes next", guide.next(card, w.configuration));
  return coming === "move" ? { choice } : { end: coming };
}

/* The program's: { choice, numbers, configuration }, and `w` is as it was; or how the program ends. A move that changes nothing, as an idle
 * one does, is passed and not shown, so many in a row. */
function nextOfProgram(w) {
  let numbers = w.numbers;
  for (let i = 0; i < MOST_IDLE; i++) {
    const gone = done("what remains of the program", guide.goOn(card, w.program, numbers, w.configuration, 1));
    if (gone.ending !== "spent") return { end: gone.ending };
    numbers = gone.remaining;
    const { configuration } = gone;
    if (Buffer.compare(placeOf(configuration), placeOf(w.configuration)) !== 0) {
      return { choice: made(w.configuration, configuration), numbers, configuration };
    }
  }
  return { end: "idle" };
}

/* Whichever tells what comes next. */
const nextOf = (w) => (w.program.length === 0 ? nextOfGuide(w) : nextOfProgram(w));

// ---- the guide

const told = (number, choice) => `${number} ${["select", "act", "revise"][choice >> 8]} ${choice & 255}`;

/* Shows the finished count, the last move done, and what comes next. */
function show(w, next) {
  const last = w.moves === 0 ? "none" : told(w.moves, w.last);
  const coming = next.end === undefined ? `next: ${told(w.moves + 1, next.choice)}` : `end: ${next.end}`;
  process.stdout.write(`bands finished: ${w.configuration.finished}\nlast: ${last}\n${coming}\n`);
}

/* How a weaving stands when the move that was shown is made. */
function after(w, { choice, numbers = w.numbers, configuration }) {
  configuration ??= done("the move", guide.take(card, w.configuration, choice)).configuration;
  return { ...w, moves: w.moves + 1, last: choice, numbers, configuration };
}

/* Guides to the card's end or the turn of the screen. Beside the lines stands what becomes of the move that is shown as the next, number n,
 * if the tablet dies there. */
let weaving = begin();
const input = createInterface({ input: process.stdin });
const lines = input[Symbol.asyncIterator]();
for (;;) {
  // Dies here: n is not shown yet. What is kept is done up to n - 1, and n is shown then.
  const next = nextOf(weaving);
  show(weaving, next);
  // Dies here, while the weaver makes n: the same screen is shown again, n - 1 as the last.
  const line = next.end === undefined ? await lines.next() : { done: true };
  if (line.done) break;
  // Dies from here on, n made and said to be: her touch is lost. The same screen is shown again, and as n - 1 is the last she sees that n
  // does not count yet: she does not make it twice, but says so once more.
  if (line.value.trim() !== `${weaving.moves + 1}`) continue;
  const stands = after(weaving, next);
  keep(stands);
  // Dies from the rename in `keep` on: n is kept, and shown as the last beside n + 1.
  weaving = stands;
}
input.close();
