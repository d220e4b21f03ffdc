/* The types of rigtemple.js. What each call does and answers is said in rigtemple.h. */

export declare const VERSION: string;
export declare const SET_BYTES: 32;
export declare const MOST_ATOMS: 256;
export declare const MOST_CARD_BYTES: 32352;
export declare const MOST_PLAN_ACTIONS: 1024;
export declare const MOST_PLACE_BYTES: 1100;
export declare const MOST_CARD_BYTES_OF_EDITION_1: 24128;
export declare const MOST_PLACE_BYTES_OF_EDITION_1: 1068;
export declare const MOST_LIST_ENTRIES: 768;
export declare const MOST_JUDGED: 512;
export declare const MOST_PRINTED_BYTES: 894;
export declare const MOST_PROGRAM_BYTES: 512;
export declare const MOST_REMAINING: 128;
export declare const MOST_SHEET_BYTES: 65535;
export declare const NO_CHOICE: 65535;

export type Kind = "selection" | "action" | "revision";
export type Ending = "spent" | "rest" | "full";
export type BoundedEnding = "spent" | "rest";
export type Coming = "move" | "rest" | "full";
export type DeliberationEnding = "spent" | "finished" | "stuck" | "full";
export type Verdict = "bounded" | "open";
export type Offender = "none" | "initial plan" | "selection" | "revision";
export type Sheet = "master" | "shed";

export declare const KINDS: readonly Kind[];
export declare const ENDINGS: readonly Ending[];
export declare const BOUNDED_ENDINGS: readonly BoundedEnding[];
export declare const COMINGS: readonly Coming[];
export declare const DELIBERATION_ENDINGS: readonly DeliberationEnding[];
export declare const VERDICTS: readonly Verdict[];
export declare const OFFENDERS: readonly Offender[];
export declare const SHEETS: readonly Sheet[];

/** The name of an answer: "plan full" for 11. */
export declare function answerName(answer: number): string;

/** The code of a choice; NO_CHOICE where there is none. */
export declare function choice(kind: Kind, number: number): number;
/** The kind of a code's choice; undefined where there is none. */
export declare function kindOf(code: number): Kind | undefined;
/** The number of a code's selection rule, specification or revision rule, from 0. */
export declare function numberOf(code: number): number;

/** Where a weaver stands in a card. */
export interface Configuration {
  /** 32 bytes: atom k is in the set if bit (k modulo 8) of byte (k divided by 8) is 1. */
  beliefs: Uint8Array;
  /** 32 bytes, the same. */
  goals: Uint8Array;
  /** 1,024 bytes, the next action first, zeros from `length` on. */
  plan: Uint8Array;
  length: number;
  phase: number;
  /** How many moves have left the plan empty: "bands finished". */
  finished: number;
}

/** No atoms, no plan, phase 0, nothing finished. */
export declare function emptyConfiguration(): Configuration;

/** What every call answers: 0 and "done", or the number and the name of a refusal. */
export interface Answer {
  answer: number;
  name: string;
}
/** The configuration after the call; after a refusal the one that came in, of load and restore the empty one. */
export interface Reached extends Answer {
  configuration: Configuration;
}
export interface Graded extends Answer {
  verdict: Verdict;
  offender: Offender;
  /** The offending rule's number, from 0. */
  number: number;
}
export interface Listed extends Answer {
  /** The codes of the enabled choices, rising. */
  choices: number[];
  /** How many conditions the listing judged, at most 512; 0 after a refusal. */
  judged: number;
  /** How many goals are open, believed ones too; 0 after a refusal. */
  openGoals: number;
}
export interface Next extends Answer {
  /** Whether a move comes next; after a refusal "rest". */
  coming: Coming;
  /** The code of the move that comes next, with "full" of the one that does not fit; 0 with "rest". */
  choice: number;
}
export interface Taken extends Reached {
  /** With 16 the node that settled the condition, else 0. */
  node: number;
}
export interface Ran extends Reached {
  moves: number;
  ending: Ending;
}
/** The numbers that takeBounded may answer: 11 is not among them. */
export type BoundedNumber = 0 | 1 | 2 | 3 | 4 | 5 | 6 | 7 | 8 | 9 | 13 | 14 | 15 | 16 | 22;
export interface BoundedTaken extends Taken {
  answer: BoundedNumber;
}
/** A run on a bounded card: "full" is no ending of it. */
export interface BoundedRan extends Reached {
  answer: 0 | 1 | 2 | 3 | 4 | 5 | 6 | 7 | 8 | 9 | 13 | 22;
  moves: number;
  ending: BoundedEnding;
}
export interface Deliberated extends Reached {
  /** Moves made, idle ones too. */
  moves: number;
  ending: DeliberationEnding;
  /** The numbers of the entries that remain, the next first. */
  remaining: Uint8Array;
}
export interface Saved extends Answer {
  /** The place; of no bytes after a refusal. */
  place: Uint8Array;
}
export interface Read extends Answer {
  /** The card; of no bytes after a refusal. */
  card: Uint8Array;
  /** With 17 the place of the first wrong byte, from 0, else 0. */
  place: number;
}
export interface Printed extends Answer {
  /** The condition; empty after a refusal. */
  text: string;
}

export interface Named extends Answer {
  /** The sheet that the action's name lies in; with 20 the one that is refused, with another refusal the master's. */
  sheet: Sheet;
  /** Where in that sheet it begins, and how many bytes it has; 0 and 0 after a refusal. */
  start: number;
  length: number;
  /** The action's name: as bytes of their own, and as text; empty after a refusal. */
  bytes: Uint8Array;
  text: string;
}

/** The guide's calls. A room that is left out is always enough. */
export interface Guide {
  check(card: Uint8Array): Answer;
  load(card: Uint8Array): Reached;
  grade(card: Uint8Array): Graded;
  list(card: Uint8Array, c: Configuration, roomInEntries?: number): Listed;
  /** The guide's own next move, which is not made: a page shows it, and takes it when the weaver has made it. */
  next(card: Uint8Array, c: Configuration): Next;
  take(card: Uint8Array, c: Configuration, choice: number): Taken;
  run(card: Uint8Array, c: Configuration, budget: number): Ran;
  /** On a bounded card, from a plan that weighs at most 1,024; else 22. */
  takeBounded(card: Uint8Array, c: Configuration, choice: number): BoundedTaken;
  runBounded(card: Uint8Array, c: Configuration, budget: number): BoundedRan;
  deliberate(card: Uint8Array, program: Uint8Array, c: Configuration, budget: number): Deliberated;
  /** From the numbers that remain of the program, as `remaining` has them. */
  goOn(card: Uint8Array, program: Uint8Array, numbers: Uint8Array, c: Configuration, budget: number): Deliberated;
  save(card: Uint8Array, c: Configuration, roomInBytes?: number): Saved;
  restore(card: Uint8Array, place: Uint8Array): Reached;
  text(text: Uint8Array, roomInBytes?: number): Read;
  print(card: Uint8Array, node: number, roomInBytes?: number): Printed;
  /** A shed that has no sheet gives null or undefined, or one of no bytes. */
  name(card: Uint8Array, shed: Uint8Array | null | undefined, master: Uint8Array, action: number): Named;
}

/** The guide of a rigtemple.wasm: of its bytes, of what fetch gives, or of a module that is compiled already. */
export declare function open(
  source: Response | ArrayBuffer | ArrayBufferView | WebAssembly.Module | PromiseLike<Response>,
): Promise<Guide>;

/** The guide over an instance of rigtemple.wasm. */
export declare function guideOf(instance: { readonly exports: WebAssembly.Exports }): Guide;
