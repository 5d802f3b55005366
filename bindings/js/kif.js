// The calls of include/kif.h for JavaScript, over kif.wasm, which `oracle/compile-proved kif wasm` makes.
// A record is a value: its block never changes, and an edit gives another record. A call that is refused throws a KifError.
//
//     const kif = await load(bytes);
//     const { record, taken, lost } = kif.read('手数----\n   1 ７六歩(77)\n');
//     record.putIn(0, '   1 ２六歩(27)\n').record.write().text

// The most bytes of a text that is read, and of a block. What is longer is refused whatever it holds, so no more than one byte more is lent.
const MOST = 65535;

export const Mode = Object.freeze({ Plain: 0, Whole: 1, Shared: 2 });

// Names by their numbers in a block (docs/BLOCK.md).
export const PRESETS = Object.freeze('平手 香落ち 右香落ち 角落ち 飛車落ち 飛香落ち 二枚落ち 三枚落ち 四枚落ち 五枚落ち 左五枚落ち 六枚落ち 左七枚落ち 右七枚落ち 八枚落ち 十枚落ち その他'.split(' '));
export const KINDS = Object.freeze(' 歩 香 桂 銀 金 角 飛 玉 と 成香 成桂 成銀 馬 龍'.split(' '));
// Those that no text says are written as 中断.
export const SPECIALS = Object.freeze('投了 中断 千日手 切れ負け 反則負け 中断 中断 持将棋 入玉勝ち 中断 中断 詰み 中断 中断'.split(' '));
export const REASONS = Object.freeze(' NoNumber TooLarge NoPlace NoKind NoOrigin NoBreak CommentHere EndOfText'.split(' '));

const HELD = ['pawns', 'lances', 'knights', 'silvers', 'golds', 'bishops', 'rooks'];

// Of each number of refusal the name of its case, and its words with the figures.
const REFUSALS = {
  1: ['TextTooLong', (n) => `the text has ${n} bytes; ${MOST} is the most`],
  2: ['NotUtf8', (n) => `the text is not UTF-8 after its first ${n} bytes`],
  3: ['HandLine', (at) => `the hand line at byte ${at} cannot be read`],
  4: ['BlockTooLong', (n) => `the block would have ${n} bytes; ${MOST} is the most`],
  5: ['BufferShort', (n) => `the result has ${n} bytes, and there is no room`],
  6: ['NoEntry', (k, ply) => `variation ${k} starts at ply ${ply}, and there is no such move for it to hang on`],
  7: ['NotSound', () => 'this is not a sound block, or not one of version 1'],
  8: ['HandCount', (side, kind) => `${side === 0 ? 'Black' : 'White'} has more than 99 ${HELD[kind]} in hand`],
  9: ['CannotWrite', (line, entry) => `line ${line}, entry ${entry} cannot be written: its square is off the board, or its time has no room beside it`],
  10: ['NoSuchPart', (k) => `there is no such part: ${k}`],
  11: ['NotOneVariation', () => 'the text is not one variation'],
  12: ['OutsideLine', (line, ply) => `line ${line} has no ply ${ply} to put a variation at`],
  13: ['EntryTaken', (line, ply) => `line ${line}, ply ${ply} already carries a variation`],
  15: ['NoStart', (preset) => `the record has no diagram, and its handicap is ${PRESETS[preset]}`],
  16: ['NoSuchEntry', (line, entry) => `line ${line} has no entry ${entry}`],
  17: ['PlayStopped', (line, entry) => `play stops at line ${line}, entry ${entry}: the move cannot be played`],
  20: ['StartsAtZero', (line) => `line ${line} starts at ply 0`],
};

// A refusal: its number, the name of its case, its figures, and its words.
export class KifError extends Error {
  constructor(number, figures) {
    const [name, said] = REFUSALS[number] ?? ['Refused', () => 'refused'];
    const words = said(...figures);
    super(`${words} (refusal ${number})`);
    this.name = name;
    this.number = number;
    this.figures = Object.freeze(figures);
    this.words = words;
  }
}

// A text as bytes.
function bytesOf(text) {
  if (typeof text === 'string') return new TextEncoder().encode(text);
  return text instanceof Uint8Array ? text : new Uint8Array(text);
}

// Bytes as a text; a byte order mark is a character like any other.
const textOf = (bytes) => new TextDecoder('utf-8', { fatal: true, ignoreBOM: true }).decode(bytes);

// The memory of one call: parts one behind another, from where the module's own memory ends.
class Area {
  constructor(exports) {
    this.memory = exports.memory;
    this.end = Math.ceil(exports.__heap_base.value / 8) * 8;
  }

  room(length) {
    const at = this.end;
    this.end = at + length;
    const missing = this.end - this.memory.buffer.byteLength;
    if (missing > 0) this.memory.grow(Math.ceil(missing / 65536));
    return at;
  }

  lend(bytes) {
    const lent = bytes.subarray(0, MOST + 1);
    const at = this.room(lent.length);
    new Uint8Array(this.memory.buffer).set(lent, at);
    return [at, BigInt(lent.length)];
  }
}

// Calls a function of the module. What it is given is bytes, which are lent, and numbers; then follow a buffer of the length `room`, if it takes
// one, and `count` lent numbers. It gives the numbers and the buffer's bytes; a first number that is not 0 is thrown.
function call(exports, name, given, room, count = 3) {
  const area = new Area(exports);
  const numbers = area.room(8 * count);
  const words = given.flatMap((x) => (x instanceof Uint8Array ? area.lend(x) : [BigInt(x)]));
  const out = room > 0 ? area.room(room) : 0;
  if (room > 0) words.push(out, BigInt(room));
  for (let i = 0; i < count; i += 1) words.push(numbers + 8 * i);
  const answer = exports[name](...words);
  const view = new DataView(exports.memory.buffer);
  const figures = Array.from({ length: count }, (_, i) => Number(view.getBigUint64(numbers + 8 * i, true)));
  return { answer, figures, out: new Uint8Array(exports.memory.buffer, out, room ?? 0) };
}

// The same, where the first number says whether it is refused: the figures behind it.
function ask(exports, name, given, room, count) {
  const { figures, out } = call(exports, name, given, room, count);
  if (figures[0] !== 0) throw new KifError(figures[0], figures.slice(1));
  return { figures: figures.slice(1), out };
}

// The bytes of a result whose length is not known before: a buffer that is too short is refused with the length that is needed.
function written(exports, name, given) {
  try {
    return ask(exports, name, given, MOST);
  } catch (refusal) {
    if (refusal.number !== 5) throw refusal;
    return ask(exports, name, given, refusal.figures[0]);
  }
}

const square = (file, rank) => Object.freeze({ file, rank });

const clock = (hour, minute, second) => Object.freeze({ hour, minute, second });

// The time of an entry's 20 bytes.
function timeIn(row) {
  const marks = row[8];
  if ((marks & 4) === 0) return null;
  return Object.freeze({
    now: clock((marks & 8) === 0 ? null : row[9], row[10], row[11]),
    total: clock((marks & 16) === 0 ? null : row[12], row[13], row[14]),
  });
}

// What its bytes say, but for the comments.
function entryIn(row) {
  if (row[0] === 0) return { type: 'slot' };
  if (row[0] === 2) return { type: 'special', special: row[1], time: timeIn(row) };
  return {
    type: 'move',
    color: row[1] === 0 ? 'black' : 'white',
    kind: row[2],
    promote: [null, false, true][row[3]],
    to: (row[8] & 2) === 0 ? square(row[4], row[5]) : null,
    from: (row[8] & 1) === 0 ? null : square(row[6], row[7]),
    time: timeIn(row),
  };
}

// The 100 bytes of a position.
function positionIn(bytes) {
  return Object.freeze({
    turn: bytes[2] === 0 ? 'black' : 'white',
    cells: bytes.slice(4, 85),
    hands: Object.freeze({ black: [...bytes.slice(85, 92)], white: [...bytes.slice(92, 99)] }),
  });
}

// A record: a sound block. Single parts are looked up by the module's calls, which refuse what there is not; all lines, all entries of a line and
// all header entries are taken from the block as docs/BLOCK.md lays it out, since each call looks first whether the block is sound.
export class Record {
  #exports;
  #block;
  #lines;

  constructor(exports, block) {
    this.#exports = exports;
    this.#block = block;
  }

  #number(at) {
    return this.#block[at] + 256 * this.#block[at + 1];
  }

  #ask(name, ...given) {
    return ask(this.#exports, name, [this.#block, ...given]).figures;
  }

  #text(at, length) {
    return textOf(this.#block.subarray(at, at + length));
  }

  // A text that one of the module's look-ups tells.
  #look(name, k) {
    return this.#text(...this.#ask(name, k));
  }

  get block() {
    return this.#block.slice();
  }

  get version() {
    return this.#number(2);
  }

  get preset() {
    return this.#block[28];
  }

  // The position that the record itself draws, or null.
  get diagram() {
    return this.#block[29] === 0 ? null : positionIn(this.#block.subarray(28, 128));
  }

  get headers() {
    const text = this.#number(22);
    return Array.from({ length: this.#number(6) }, (_, k) => {
      const [key, keyLength, value, valueLength] = [0, 2, 4, 6].map((i) => this.#number(128 + 8 * k + i));
      return { key: this.#text(text + key, keyLength), value: this.#text(text + value, valueLength) };
    });
  }

  // Every line: its start, how many entries it has, its parent, and the parent's entry that it hangs on.
  get lines() {
    this.#lines ??= Object.freeze(
      Array.from({ length: this.#number(8) }, (_, k) => {
        const [start, , entries, parent] = [0, 2, 4, 6].map((i) => this.#number(this.#number(16) + 8 * k + i));
        const above = this.#number(this.#number(16) + 8 * parent);
        return Object.freeze({ start, entries, parent, hangs: start - above });
      }),
    );
    return this.#lines;
  }

  line(k) {
    const [start, entries] = this.#ask('kif_line', k);
    const [parent] = this.#ask('kif_parent', k);
    return { start, entries, parent, hangs: start - this.#ask('kif_line', parent)[0] };
  }

  // Every entry of a line, with its comments.
  entries(line) {
    const { entries } = this.lines[line] ?? this.line(line);
    const first = this.#number(this.#number(16) + 8 * line + 2);
    return Array.from({ length: entries }, (_, e) => this.#entryAt(this.#number(18) + 20 * (first + e)));
  }

  entry(line, entry) {
    return this.#entryAt(this.#ask('kif_entry', line, entry)[0]);
  }

  #entryAt(at) {
    const comments = Array.from({ length: this.#number(at + 18) }, (_, i) => this.#commentAt(this.#number(at + 16) + i));
    return { ...entryIn(this.#block.subarray(at, at + 20)), comments };
  }

  #commentAt(k) {
    const row = this.#number(20) + 4 * k;
    return this.#text(this.#number(22) + this.#number(row), this.#number(row + 2));
  }

  comment(k) {
    return this.#look('kif_comment', k);
  }

  key(k) {
    return this.#look('kif_key', k);
  }

  value(k) {
    return this.#look('kif_value', k);
  }

  // The position after an entry.
  position(line, entry) {
    return positionIn(ask(this.#exports, 'kif_position', [this.#block, line, entry], 100).out);
  }

  // The record that an edit gives, and its second figure.
  #edited(name, ...given) {
    const { figures, out } = ask(this.#exports, name, [this.#block, ...given], MOST);
    return [new Record(this.#exports, out.slice(0, figures[0])), figures[1]];
  }

  putIn(line, text) {
    const [record, put] = this.#edited('kif_put_in', line, bytesOf(text));
    return { record, line: put };
  }

  cut(line) {
    const [record, removed] = this.#edited('kif_cut', line);
    return { record, removed };
  }

  restate() {
    return this.#edited('kif_restate')[0];
  }

  write(mode = Mode.Shared) {
    const { figures, out } = written(this.#exports, 'kif_write_as', [this.#block, mode]);
    const bytes = out.slice(0, figures[0]);
    return { bytes, text: textOf(bytes), leftOut: figures[1] };
  }

  equals(other) {
    const block = other.#block;
    return this.#block.length === block.length && this.#block.every((byte, i) => byte === block[i]);
  }
}

// The module, loaded.
export class Kif {
  #exports;

  constructor(instance) {
    this.#exports = instance.exports;
  }

  // How long a text's block is, and how many of its bytes are taken.
  measure(text) {
    const bytes = this.#checked(text);
    const [length, taken] = ask(this.#exports, 'kif_measure', [bytes]).figures;
    return { length, taken };
  }

  // The record of a text, how many bytes were taken, and how many times were lost to a figure over 255.
  read(text) {
    const bytes = this.#checked(text);
    const { figures, out } = call(this.#exports, 'kif_fill', [bytes], MOST, 4);
    const [number, taken, length, lost] = figures;
    // refusal 6 tells more by kif_stop
    if (number === 6) this.stop(bytes);
    if (number !== 0) throw new KifError(number, [taken, length]);
    return { record: new Record(this.#exports, out.slice(0, length)), taken, lost };
  }

  // Where reading a text stops, and why. Refusal 6 has six figures here.
  stop(text) {
    const bytes = this.#checked(text);
    const [taken, reason, reached] = ask(this.#exports, 'kif_stop', [bytes], 0, 7).figures;
    return { taken: this.spot(bytes, taken), reached: this.spot(bytes, reached), reason, name: REASONS[reason] };
  }

  // The line and the column of a byte of a text.
  spot(text, at) {
    const [line, column] = call(this.#exports, 'kif_spot', [bytesOf(text), at], 0, 2).figures;
    return { at, line, column };
  }

  sound(block) {
    return call(this.#exports, 'kif_sound', [bytesOf(block)], 0, 0).answer !== 0;
  }

  // The record of a block, which must be sound.
  record(block) {
    if (!this.sound(block)) throw new KifError(7, [0, 0]);
    return new Record(this.#exports, bytesOf(block).slice());
  }

  // A text of a length that is read; refusal 1 comes before all others.
  #checked(text) {
    const bytes = bytesOf(text);
    if (bytes.length > MOST) throw new KifError(1, [bytes.length, 0]);
    return bytes;
  }
}

// The bytes at an address. Node reads no file by fetch.
async function bytesAt(url) {
  if (url.protocol === 'file:' && globalThis.process !== undefined) return (await import('node:fs/promises')).readFile(url);
  const answer = await fetch(url);
  if (!answer.ok) throw new Error(`${url}: ${answer.status}`);
  return answer.arrayBuffer();
}

// Loads the module from its bytes, or from an address; a relative one is taken from the page's, or from this file's.
export async function load(source) {
  const named = typeof source === 'string' || source instanceof URL;
  const bytes = named ? await bytesAt(new URL(source, globalThis.document?.baseURI ?? import.meta.url)) : source;
  const { instance } = await WebAssembly.instantiate(bytes, {});
  return new Kif(instance);
}
