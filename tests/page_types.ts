/* The types of rigtemple.d.ts, as a page uses them: the compiler accepts every line, and tells each that is marked. */
import { choice, guideOf, kindOf, numberOf, open } from "./rigtemple.js";
import type { BoundedEnding, Coming, Configuration, Ending, Guide, Kind, Named, Next, Sheet } from "./rigtemple.js";

export async function moves(card: Uint8Array): Promise<[Ending, number, string]> {
  const guide: Guide = await open(fetch("rigtemple.wasm"));
  const loaded = guide.load(card);
  if (loaded.answer !== 0) return ["spent", 0, loaded.name];
  const c: Configuration = loaded.configuration;
  const kinds: (Kind | undefined)[] = guide.list(card, c).choices.map(kindOf);
  const taken = guide.take(card, c, choice("selection", numberOf(kinds.length)));
  const place = guide.save(card, taken.configuration, 1100).place;
  const ran = guide.run(card, guide.restore(card, place).configuration, 1000);
  const remaining: Uint8Array = guide.deliberate(card, new Uint8Array(4), ran.configuration, 1).remaining;
  const made = guide.text(new TextEncoder().encode("atoms 1\n"));
  return [ran.ending, ran.moves + remaining.length + made.place, guide.print(made.card, 0).text];
}

export function shown(guide: Guide, card: Uint8Array, program: Uint8Array, numbers: Uint8Array, c: Configuration): [Coming, number] {
  const next: Next = guide.next(card, c);
  const own = guide.goOn(card, program, numbers, c, 1);
  const kept: Uint8Array = own.remaining;
  return [own.ending === "stuck" || kept.length === 0 ? "rest" : next.coming, next.choice];
}

export function bounded(guide: Guide, card: Uint8Array, c: Configuration): BoundedEnding {
  const taken = guide.takeBounded(card, c, 0);
  return guide.runBounded(card, taken.answer === 22 ? c : taken.configuration, 1000).ending;
}

export function inTwoLanguages(guide: Guide, card: Uint8Array, shed: Uint8Array | null, master: Uint8Array): [string, Sheet, Uint8Array] {
  const named: Named = guide.name(card, shed, master, 0);
  const whole: number = guide.name(card, undefined, master, 0).start + named.length;
  return [named.text, named.sheet, named.bytes.subarray(0, whole)];
}

export async function wrong(module: WebAssembly.Module, card: Uint8Array) {
  const guide = guideOf(await WebAssembly.instantiate(module));
  // @ts-expect-error a card is bytes
  guide.check("card");
  // @ts-expect-error a configuration has all its parts
  guide.list(card, { length: 0, phase: 0, finished: 0 });
  // @ts-expect-error a run has no ending "stuck"
  if (guide.run(card, guide.load(card).configuration, 1).ending === "stuck") return;
  // @ts-expect-error a run on a bounded card has no ending "full"
  if (guide.runBounded(card, guide.load(card).configuration, 1).ending === "full") return;
  // @ts-expect-error a chosen move on a bounded card never leaves too long a plan
  if (guide.takeBounded(card, guide.load(card).configuration, 0).answer === 11) return;
  // @ts-expect-error nothing comes that is "spent"
  if (guide.next(card, guide.load(card).configuration).coming === "spent") return;
  // @ts-expect-error numbers are bytes
  guide.goOn(card, card, [0], guide.load(card).configuration, 1);
  // @ts-expect-error a master's sheet has to be there
  guide.name(card, card, null, 0);
  // @ts-expect-error there is no such sheet
  if (guide.name(card, null, card, 0).sheet === "none") return;
  // @ts-expect-error there is no such kind
  choice("rest", 0);
  // @ts-expect-error a module is no instance
  guideOf(module);
}
