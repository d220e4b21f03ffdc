/*
 * The guide's calls for a page: a thin module over rigtemple.wasm, with no dependency.
 *
 *   import { open } from "./rigtemple.js";
 *   const guide = await open(fetch("rigtemple.wasm"));
 *   const loaded = guide.load(card);            // card: the bytes of a file, a Uint8Array
 *   if (loaded.answer !== 0) console.log(`refused: ${loaded.name}`);
 *
 * What each call does and answers is said in rigtemple.h; rigtemple.d.ts has the types. Each answer is a plain object with the answer's
 * number and name; 0 is done. Nothing that is handed in is changed or kept: an answer holds bytes of its own. The bytes and numbers may
 * be any; what is not a Uint8Array, or a number that its field cannot hold, is a mistake of the page, and throws.
 */

export const VERSION = "4.2";

/* Sizes, as rigtemple.h has them. */
export const SET_BYTES = 32;
export const MOST_ATOMS = 256;
export const MOST_CARD_BYTES = 32352;
export const MOST_PLAN_ACTIONS = 1024;
export const MOST_PLACE_BYTES = 1100;
export const MOST_CARD_BYTES_OF_EDITION_1 = 24128;
export const MOST_PLACE_BYTES_OF_EDITION_1 = 1068;
export const MOST_LIST_ENTRIES = 768;
export const MOST_JUDGED = 512;
export const MOST_PRINTED_BYTES = 894;
export const MOST_PROGRAM_BYTES = 512;
export const MOST_REMAINING = 128;
export const MOST_SHEET_BYTES = 65535;

/* What an answer's numbers stand for, by their place from 0. */
export const KINDS = ["selection", "action", "revision"];
export const ENDINGS = ["spent", "rest", "full"];
export const BOUNDED_ENDINGS = ["spent", "rest"];
export const COMINGS = ["move", "rest", "full"];
export const DELIBERATION_ENDINGS = ["spent", "finished", "stuck", "full"];
export const VERDICTS = ["bounded", "open"];
export const OFFENDERS = ["none", "initial plan", "selection", "revision"];
export const SHEETS = ["master", "shed"];

const NAMES = {
  0: "done", 1: "short", 2: "mark", 3: "count", 4: "offsets", 5: "weight", 6: "node", 7: "rule", 8: "action byte", 9: "atom",
  10: "given up", 11: "plan full", 12: "no room", 13: "configuration", 14: "no rule", 15: "front", 16: "condition", 17: "text",
  18: "nested", 19: "program", 20: "sheet", 21: "no action", 22: "open or heavy", 25: "large",
};

/* The name of an answer: "plan full" for 11. */
export function answerName(answer) {
  return NAMES[answer] ?? "no answer of the guide";
}

/* The code of a choice, and the kind and number of a code. */
export const NO_CHOICE = 65535;
export function choice(kind, number) {
  const at = KINDS.indexOf(kind);
  return at >= 0 && Number.isInteger(number) && number >= 0 && number <= 255 ? 256 * at + number : NO_CHOICE;
}
export function kindOf(code) {
  return KINDS[Math.floor(code / 256)];
}
export function numberOf(code) {
  return code % 256;
}

/* No atoms, no plan, phase 0, nothing finished. */
export function emptyConfiguration() {
  return {
    beliefs: new Uint8Array(SET_BYTES),
    goals: new Uint8Array(SET_BYTES),
    plan: new Uint8Array(MOST_PLAN_ACTIONS),
    length: 0,
    phase: 0,
    finished: 0,
  };
}

/* The guide of a rigtemple.wasm: of its bytes, of what fetch gives, or of a module that is compiled already. */
export async function open(source) {
  const given = await source;
  if (given instanceof WebAssembly.Module) return guideOf(await WebAssembly.instantiate(given));
  if (given instanceof ArrayBuffer || ArrayBuffer.isView(given)) return guideOf((await WebAssembly.instantiate(given)).instance);
  if (!given.ok) throw new Error(`rigtemple.wasm is not there: ${given.status} ${given.statusText}`);
  return guideOf((await WebAssembly.instantiate(await given.arrayBuffer())).instance);
}

/* ---- lending: what a call is given is laid out in the module's memory behind its own, anew for each call ---- */

const PAGE = 65536;

/* The parts that a call is lent, one behind the other. `at` is where each begins; no two overlap, and each is aligned for any
 * number. */
class Lent {
  constructor(exports) {
    this.memory = exports.memory;
    this.end = exports.__heap_base.value;
  }

  /* Room for so many bytes, which are not written. */
  room(bytes) {
    const at = Math.ceil(this.end / 8) * 8;
    this.end = at + bytes;
    const missing = this.end - this.memory.buffer.byteLength;
    if (missing > 0) this.memory.grow(Math.ceil(missing / PAGE));
    return at;
  }

  /* Some bytes. */
  bytes(from) {
    const at = this.room(from.length);
    new Uint8Array(this.memory.buffer).set(from, at);
    return at;
  }

  /* A number of so many bytes. */
  number(value, bytes) {
    return this.bytes(bytes === 1 ? [value] : [value & 255, value >> 8]);
  }

  /* What lies there now: bytes of their own, or a number. */
  bytesAt(at, count) {
    return new Uint8Array(this.memory.buffer, at, count).slice();
  }
  byteAt(at) {
    return new DataView(this.memory.buffer).getUint8(at);
  }
  numberAt(at) {
    return new DataView(this.memory.buffer).getUint16(at, true);
  }
  lengthAt(at) {
    return Number(new DataView(this.memory.buffer).getBigUint64(at, true));
  }
}

function asBytes(value, what, count) {
  if (!(value instanceof Uint8Array)) throw new TypeError(`${what} is no Uint8Array`);
  if (count !== undefined && value.length !== count) throw new RangeError(`${what} has ${value.length} bytes, not ${count}`);
  return value;
}

function asNumber(value, what, most) {
  if (!Number.isInteger(value) || value < 0 || value > most) throw new RangeError(`${what} is ${value}, not 0 to ${most}`);
  return value;
}

/* A name's bytes as a string: a byte order mark is a character of it like others. */
const UTF8 = new TextDecoder("utf-8", { ignoreBOM: true });

/* A configuration of the page's, looked at. */
function asParts(c) {
  return {
    beliefs: asBytes(c.beliefs, "beliefs", SET_BYTES),
    goals: asBytes(c.goals, "goals", SET_BYTES),
    plan: asBytes(c.plan, "plan", MOST_PLAN_ACTIONS),
    length: asNumber(c.length, "length", 65535),
    phase: asNumber(c.phase, "phase", 255),
    finished: asNumber(c.finished, "finished", 65535),
  };
}

/* ---- the calls ---- */

/* The guide over an instance of rigtemple.wasm. */
export function guideOf(instance) {
  const exports = instance.exports;

  /* Makes a call. A length is 64 bits there, and of the result the low 16 are the answer. */
  function ask(name, ...words) {
    const answer = exports[`rigtemple_4_${name}_parts`](...words) & 65535;
    return { answer, name: answerName(answer) };
  }
  const pair = (lent, bytes) => [lent.bytes(bytes), BigInt(bytes.length)];

  /* A configuration that a call only reads: its numbers go by value. */
  function read(lent, c) {
    const parts = asParts(c);
    return [lent.bytes(parts.beliefs), lent.bytes(parts.goals), lent.bytes(parts.plan), parts.length, parts.phase, parts.finished];
  }

  /* A configuration that a call changes: its numbers are lent too. */
  function lend(lent, c) {
    const parts = asParts(c);
    return [
      lent.bytes(parts.beliefs), lent.bytes(parts.goals), lent.bytes(parts.plan),
      lent.number(parts.length, 2), lent.number(parts.phase, 1), lent.number(parts.finished, 2),
    ];
  }

  /* Room for a configuration that a call makes, and the one that lies there. */
  function roomForConfiguration(lent) {
    return [SET_BYTES, SET_BYTES, MOST_PLAN_ACTIONS, 2, 1, 2].map((bytes) => lent.room(bytes));
  }
  function configurationAt(lent, [beliefs, goals, plan, length, phase, finished]) {
    return {
      beliefs: lent.bytesAt(beliefs, SET_BYTES),
      goals: lent.bytesAt(goals, SET_BYTES),
      plan: lent.bytesAt(plan, MOST_PLAN_ACTIONS),
      length: lent.numberAt(length),
      phase: lent.byteAt(phase),
      finished: lent.numberAt(finished),
    };
  }

  /* A chosen move by the function of that name. */
  function taken(name, card, c, choice) {
    const lent = new Lent(exports);
    const given = pair(lent, asBytes(card, "the card"));
    const changed = lend(lent, c);
    const node = lent.room(2);
    const said = ask(name, ...given, ...changed, asNumber(choice, "the choice", 65535), node);
    return { ...said, configuration: configurationAt(lent, changed), node: lent.numberAt(node) };
  }

  /* A run by the function of that name, with the words of its endings. */
  function ran(name, endings, card, c, budget) {
    const lent = new Lent(exports);
    const given = pair(lent, asBytes(card, "the card"));
    const changed = lend(lent, c);
    const [moves, ending] = [lent.room(2), lent.room(1)];
    const said = ask(name, ...given, ...changed, asNumber(budget, "the budget", 65535), moves, ending);
    return {
      ...said,
      configuration: configurationAt(lent, changed),
      moves: lent.numberAt(moves),
      ending: endings[lent.byteAt(ending)],
    };
  }

  /* A deliberation by the function of that name, with what is given before the configuration. */
  function deliberated(name, lent, given, c, budget) {
    const changed = lend(lent, c);
    const [moves, ending, remaining, count] = [2, 1, MOST_REMAINING, 1].map((bytes) => lent.room(bytes));
    const said = ask(name, ...given, ...changed, asNumber(budget, "the budget", 65535), moves, ending, remaining, count);
    return {
      ...said,
      configuration: configurationAt(lent, changed),
      moves: lent.numberAt(moves),
      ending: DELIBERATION_ENDINGS[lent.byteAt(ending)],
      remaining: lent.bytesAt(remaining, lent.byteAt(count)),
    };
  }

  return {
    /* Judges a card. */
    check(card) {
      const lent = new Lent(exports);
      return ask("check", ...pair(lent, asBytes(card, "the card")));
    },

    /* The configuration that a weaver begins with. */
    load(card) {
      const lent = new Lent(exports);
      const given = pair(lent, asBytes(card, "the card"));
      const made = roomForConfiguration(lent);
      const said = ask("load", ...given, ...made);
      return { ...said, configuration: configurationAt(lent, made) };
    },

    /* The verdict on a card, and its first offender. */
    grade(card) {
      const lent = new Lent(exports);
      const given = pair(lent, asBytes(card, "the card"));
      const [verdict, offender, number] = [lent.room(1), lent.room(1), lent.room(2)];
      const said = ask("grade", ...given, verdict, offender, number);
      return {
        ...said,
        verdict: VERDICTS[lent.byteAt(verdict)],
        offender: OFFENDERS[lent.byteAt(offender)],
        number: lent.numberAt(number),
      };
    },

    /* The codes of the enabled choices, rising; how many conditions were judged, and how many goals are open. */
    list(card, c, room = MOST_LIST_ENTRIES) {
      const lent = new Lent(exports);
      const given = [...pair(lent, asBytes(card, "the card")), ...read(lent, c)];
      const list = lent.room(2 * asNumber(room, "the room", 65535));
      const [entries, judged, openGoals] = [lent.room(2), lent.room(2), lent.room(2)];
      const said = ask("list_looks", ...given, list, BigInt(room), entries, judged, openGoals);
      const choices = Array.from({ length: lent.numberAt(entries) }, (_, i) => lent.numberAt(list + 2 * i));
      return { ...said, choices, judged: lent.numberAt(judged), openGoals: lent.numberAt(openGoals) };
    },

    /* What comes next of the guide's own, and the code of that move; no move is made. */
    next(card, c) {
      const lent = new Lent(exports);
      const given = [...pair(lent, asBytes(card, "the card")), ...read(lent, c)];
      const [coming, choice] = [lent.room(1), lent.room(2)];
      const said = ask("next", ...given, coming, choice);
      return { ...said, coming: COMINGS[lent.byteAt(coming)], choice: lent.numberAt(choice) };
    },

    /* The configuration after a chosen move; or why the move is closed, with the node that settled its condition. */
    take(card, c, choice) {
      return taken("take", card, c, choice);
    },

    /* The configuration after at most `budget` moves of the guide's own. */
    run(card, c, budget) {
      return ran("run", ENDINGS, card, c, budget);
    },

    /* The same two on a bounded card, from a plan that weighs at most 1,024: never 11, and never "full". */
    takeBounded(card, c, choice) {
      return taken("take_bounded", card, c, choice);
    },
    runBounded(card, c, budget) {
      return ran("run_bounded", BOUNDED_ENDINGS, card, c, budget);
    },

    /* The configuration after at most `budget` moves of a program, and what remains of it. */
    deliberate(card, program, c, budget) {
      const lent = new Lent(exports);
      const given = [...pair(lent, asBytes(card, "the card")), ...pair(lent, asBytes(program, "the program"))];
      return deliberated("deliberate", lent, given, c, budget);
    },

    /* The same from the numbers that remain of a program: the next first, as a call left them in `remaining`. */
    goOn(card, program, numbers, c, budget) {
      const lent = new Lent(exports);
      const given = [...pair(lent, asBytes(card, "the card")), ...pair(lent, asBytes(program, "the program"))];
      return deliberated("go_on", lent, [...given, ...pair(lent, asBytes(numbers, "the numbers"))], c, budget);
    },

    /* A configuration as a place, to be kept. */
    save(card, c, room = MOST_PLACE_BYTES) {
      const lent = new Lent(exports);
      const given = [...pair(lent, asBytes(card, "the card")), ...read(lent, c)];
      const place = lent.room(asNumber(room, "the room", 65535));
      const bytes = lent.room(2);
      const said = ask("save", ...given, place, BigInt(room), bytes);
      return { ...said, place: lent.bytesAt(place, lent.numberAt(bytes)) };
    },

    /* The configuration that a place holds. */
    restore(card, place) {
      const lent = new Lent(exports);
      const given = [...pair(lent, asBytes(card, "the card")), ...pair(lent, asBytes(place, "the place"))];
      const made = roomForConfiguration(lent);
      const said = ask("restore", ...given, ...made);
      return { ...said, configuration: configurationAt(lent, made) };
    },

    /* The card of a text, given as bytes; or the place of the first byte that is wrong. */
    text(text, room = MOST_CARD_BYTES_OF_EDITION_1) {
      const lent = new Lent(exports);
      const given = pair(lent, asBytes(text, "the text"));
      const card = lent.room(asNumber(room, "the room", 65535));
      const [bytes, place] = [lent.room(2), lent.room(8)];
      const said = ask("text", ...given, card, BigInt(room), bytes, place);
      return { ...said, card: lent.bytesAt(card, lent.numberAt(bytes)), place: lent.lengthAt(place) };
    },

    /* The condition of a node, as text. */
    print(card, node, room = MOST_PRINTED_BYTES) {
      const lent = new Lent(exports);
      const given = pair(lent, asBytes(card, "the card"));
      asNumber(node, "the node", 65535);
      const text = lent.room(asNumber(room, "the room", 65535));
      const bytes = lent.room(2);
      const said = ask("print", ...given, node, text, BigInt(room), bytes);
      return { ...said, text: String.fromCharCode(...lent.bytesAt(text, lent.numberAt(bytes))) };
    },

    /* The name of an action: in the shed's sheet, which may be left out or null for none, or in the master's. */
    name(card, shed, master, action) {
      const lent = new Lent(exports);
      const given = pair(lent, asBytes(card, "the card"));
      const own = pair(lent, asBytes(shed ?? new Uint8Array(), "the shed's sheet"));
      const masters = pair(lent, asBytes(master, "the master's sheet"));
      asNumber(action, "the action", 65535);
      const [which, from, count] = [lent.room(1), lent.room(2), lent.room(2)];
      const said = ask("name", ...given, ...own, ...masters, action, which, from, count);
      const [sheet, start, length] = [SHEETS[lent.byteAt(which)], lent.numberAt(from), lent.numberAt(count)];
      const [at] = said.answer === 0 && sheet === "shed" ? own : masters;
      const bytes = lent.bytesAt(at + start, length);
      return { ...said, sheet, start, length, bytes, text: UTF8.decode(bytes) };
    },
  };
}
