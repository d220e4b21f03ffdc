/*
 * The functions of rigtemple.wasm, watched. What a caller lends is moved to an arena of its own, with guard bytes around each part; the
 * call is made there, and what it wrote is moved back. A byte of the memory that is neither the stack's nor of a part that may be
 * written, and is another afterwards, is told. So is what breaks the header's rules for callers: a pointer that is null or not aligned,
 * and parts that overlap. What each parameter is, and how long, is read from include/rigtemple.h.
 */

const ELEMENT = { uint8_t: 1, uint16_t: 2, size_t: 8 };
const PAINT = 0xa5;
const LENT = 0xee;
const GUARD = 64;
const PAGE = 65536;

/* The functions that the header declares, each with its parameters: name, bytes of an element, whether a pointer, and whether it is
 * only read. */
export function declaredIn(header) {
  const found = {};
  for (const [, name, words] of header.matchAll(/^uint16_t (rigtemple_\w+_parts)\(([^;{)]*)\);/gm)) {
    found[name] = words.split(",").map((word) => {
      const [, reads, type, pointer, own] = word.match(/^\s*(const )?(\w+)\s+(\*?)(\w+)\s*$/);
      return { own, element: ELEMENT[type], pointer: pointer === "*", reads: reads !== undefined, length: type === "size_t" };
    });
  }
  return found;
}

/* The bytes of the parts that have a fixed length, as the header says them: "`beliefs` and `goals` are 32 bytes each". */
export function fixedIn(header) {
  const found = {};
  for (const [, names, bytes] of header.matchAll(/((?:`\w+`(?: and )?)+) (?:is|are) ([\d,]+)\s+bytes/g)) {
    for (const [, name] of names.matchAll(/`(\w+)`/g)) found[name] = Number(bytes.replace(",", ""));
  }
  return found;
}

export class Guarded {
  /* The first pages are for the caller, as many as are named, and the arena has as many behind them. */
  constructor(instance, header, pages) {
    this.own = instance.exports;
    this.fixed = fixedIn(header);
    this.own.memory.grow(2 * pages - 1);
    this.heap = this.own.__heap_base.value;
    this.top = this.own.__global_base.value;
    this.arena = PAGE * pages;
    this.end = 2 * this.arena;
    this.lent = {}; // what the parts that could be written hold after the last call, by name
    this.stack = {}; // the deepest stack of each function
    this.exports = { ...this.own };
    for (const [name, parameters] of Object.entries(declaredIn(header))) {
      this.exports[name] = (...words) => this.call(name, parameters, words);
    }
  }

  get bytes() {
    return new Uint8Array(this.own.memory.buffer);
  }

  /* The parts that a call is given: which word each is, and its bytes. */
  parts(parameters, words) {
    const found = [];
    parameters.forEach(({ own, element, pointer, reads }, word) => {
      if (!pointer) return;
      const next = parameters[word + 1];
      const counted = next?.length && !next.pointer;
      const count = counted ? element * Number(words[word + 1]) : (this.fixed[own] ?? element);
      found.push({ own, element, reads, word, from: words[word], to: words[word] + count });
    });
    return found;
  }

  /* Holds the parts to the header's rules. */
  judge(name, parts) {
    const sorted = [...parts].sort((one, other) => one.from - other.from || one.to - other.to);
    sorted.forEach((part, i) => {
      const wrong = (what) => new Error(`${name}: ${part.own} ${what}`);
      if (!(part.from >= this.heap && part.to <= this.arena)) throw wrong("is outside the memory that may be lent");
      if (part.from % part.element !== 0) throw wrong("is not aligned");
      if (i > 0 && sorted[i - 1].to > part.from) throw wrong(`overlaps ${sorted[i - 1].own}`);
    });
  }

  /* Moves the parts to the arena: the words of the call there. */
  move(parts, words) {
    const bytes = this.bytes.fill(LENT, this.arena);
    const moved = [...words];
    let at = this.arena;
    for (const part of parts) {
      part.there = Math.ceil(at / 8) * 8 + GUARD;
      at = part.there + part.to - part.from;
      if (at + GUARD > this.end) throw new Error("the arena is too small");
      bytes.copyWithin(part.there, part.from, part.to);
      moved[part.word] = part.there;
    }
    return moved;
  }

  /* Holds the memory against what it was, but for the stack and what may be written; moves that back. */
  hold(name, before, parts) {
    const after = this.bytes;
    let at = this.top;
    for (const part of [...parts.filter(({ reads }) => !reads), { there: this.end, from: 0, to: 0 }]) {
      if (Buffer.compare(before.subarray(at, part.there), after.subarray(at, part.there)) !== 0) {
        throw new Error(`${name} wrote outside what it was lent, before ${part.own ?? "the end"}`);
      }
      at = part.there + part.to - part.from;
      after.copyWithin(part.from, part.there, at);
    }
  }

  call(name, parameters, words) {
    if (words.length !== parameters.length) throw new Error(`${name} has ${parameters.length} parameters, not ${words.length}`);
    const parts = this.parts(parameters, words);
    this.judge(name, parts);
    const moved = this.move(parts, words);
    const before = this.bytes.fill(PAINT, 0, this.top).slice();
    const answer = this.own[name](...moved);
    this.hold(name, before, parts);
    const after = this.bytes;
    this.lent = Object.fromEntries(parts.filter(({ reads }) => !reads).map(({ own, from, to }) => [own, after.slice(from, to)]));
    let unused = 0;
    while (unused < this.top && after[unused] === PAINT) unused++;
    this.stack[name] = Math.max(this.stack[name] ?? 0, this.top - unused);
    return answer;
  }
}
