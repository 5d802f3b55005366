// The calls and types of kif.js. Numbers of presets, kinds, specials, reasons and refusals are those of docs/BLOCK.md.

/** A text is a string, or its bytes in UTF-8. */
export type Text = string | Uint8Array | ArrayBuffer;

/** How a record is written: as the original does, losing nothing, or losing nothing for other programs too. */
export const Mode: Readonly<{ Plain: 0; Whole: 1; Shared: 2 }>;

/** Words by number: presets, kinds (from 1), specials. */
export const PRESETS: readonly string[];
export const KINDS: readonly string[];
export const SPECIALS: readonly string[];

/** Names of the reasons to stop reading, from 1. */
export const REASONS: readonly string[];

/** A refused call: its number, the name of its case, its figures, and words in English. */
export class KifError extends Error {
  constructor(number: number, figures: number[]);
  readonly number: number;
  readonly name: string;
  readonly figures: readonly number[];
  readonly words: string;
}

export type Color = 'black' | 'white';

export interface Square {
  readonly file: number;
  readonly rank: number;
}

/** An hour of null is none: m:s and not h:m:s. */
export interface Clock {
  readonly hour: number | null;
  readonly minute: number;
  readonly second: number;
}

/** What the entry itself took, and what its side took in all. */
export interface Time {
  readonly now: Clock;
  readonly total: Clock;
}

/** Entry 0 of line 0: the start. */
export interface Slot {
  type: 'slot';
  comments: string[];
}

export interface Move {
  type: 'move';
  color: Color;
  /** 1 to 14 */
  kind: number;
  /** true 成, false 不成, null where nothing is said */
  promote: boolean | null;
  /** null is 同 */
  to: Square | null;
  /** (0,0) is a drop; null where it is not known */
  from: Square | null;
  time: Time | null;
  comments: string[];
}

export interface Special {
  type: 'special';
  /** 0 to 13 */
  special: number;
  time: Time | null;
  comments: string[];
}

export type Entry = Slot | Move | Special;

/** A line of play: the ply of its first entry, how many it has, and the line and the entry in it that it hangs on. */
export interface Line {
  readonly start: number;
  readonly entries: number;
  readonly parent: number;
  readonly hangs: number;
}

export interface Header {
  key: string;
  value: string;
}

/** Cells by 9 (file - 1) + (rank - 1): 0 is empty, 1 to 14 Black's kinds, 17 to 30 White's. Hands count kinds 1 to 7. */
export interface Position {
  readonly turn: Color;
  readonly cells: Uint8Array;
  readonly hands: Readonly<{ black: number[]; white: number[] }>;
}

/** A byte of a text, with its line and column, both from 1. */
export interface Spot {
  at: number;
  line: number;
  column: number;
}

/** The first byte that was not taken, the place that the failing rule reached, and the reason by number and name. */
export interface Stop {
  taken: Spot;
  reached: Spot;
  reason: number;
  name: string;
}

/** A record is a value: edits give another one. */
export class Record {
  private constructor();
  /** A copy of its bytes. */
  get block(): Uint8Array;
  get version(): number;
  get preset(): number;
  /** The position that the record draws itself, or null. */
  get diagram(): Position | null;
  get headers(): Header[];
  get lines(): readonly Line[];
  /** Refusal 10 where there is no such line; so in every call that is given a line. */
  line(line: number): Line;
  entries(line: number): Entry[];
  /** Refusals 10 and 16. */
  entry(line: number, entry: number): Entry;
  /** Comment, key and value by number among all; refusal 10. */
  comment(k: number): string;
  key(k: number): string;
  value(k: number): string;
  /** The position after an entry; refusals 10, 15, 16, 17. */
  position(line: number, entry: number): Position;
  /** Refusals 10, 11, 12, 13, 4. `line` is the new line's number. */
  putIn(line: number, text: Text): { record: Record; line: number };
  /** Refusal 10. */
  cut(line: number): { record: Record; removed: number };
  /** The same as version 2, in which a move may have several variations; refusal 7 for one of version 2. */
  restate(): Record;
  /** Shared unless another mode is given; refusals 20, 8, 9. */
  write(mode?: 0 | 1 | 2): { bytes: Uint8Array; text: string; leftOut: number };
  /** Whether both have the same bytes. */
  equals(other: Record): boolean;
}

/** The loaded module. */
export class Kif {
  constructor(instance: WebAssembly.Instance);
  /** Refusals 1, 2, 3, 4. */
  measure(text: Text): { length: number; taken: number };
  /** Refusals 1, 2, 3, 4, 6, the last with the six figures of stop. `lost` counts times with a figure over 255. */
  read(text: Text): { record: Record; taken: number; lost: number };
  /** Refusals 1, 2, 3, 6. */
  stop(text: Text): Stop;
  spot(text: Text, at: number): Spot;
  sound(block: Uint8Array | ArrayBuffer): boolean;
  /** The record of a block; refusal 7. */
  record(block: Uint8Array | ArrayBuffer): Record;
}

/** Loads kif.wasm from its bytes or from an address. */
export function load(source: Uint8Array | ArrayBuffer | string | URL): Promise<Kif>;
