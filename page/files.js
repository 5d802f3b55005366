// Files: opened, as UTF-8 or as Shift_JIS, and saved.
import { KifError } from '../bindings/js/kif.js';
import { make } from './dom.js';
import { beyondOf } from './beyond.js';

const hasMark = (bytes) => bytes[0] === 0xef && bytes[1] === 0xbb && bytes[2] === 0xbf;

// The bytes as UTF-8, by the browser's decoder where they are Shift_JIS; null where they are neither.
function asUtf8(bytes) {
  try {
    new TextDecoder('utf-8', { fatal: true }).decode(bytes);
    return { bytes, encoding: 'UTF-8' };
  } catch {
    return fromShiftJis(bytes);
  }
}

function fromShiftJis(bytes) {
  try {
    const text = new TextDecoder('shift_jis', { fatal: true }).decode(bytes);
    return { bytes: new TextEncoder().encode(text), encoding: 'Shift_JIS' };
  } catch {
    return null;
  }
}

// A last line without a break would not be read.
function withLastBreak(bytes) {
  if (bytes.length === 0 || bytes.at(-1) === 10) return bytes;
  const ended = new Uint8Array(bytes.length + 1);
  ended.set(bytes);
  ended[bytes.length] = 10;
  return ended;
}

// A file read: its record, and all that is to be told of it. What is refused is thrown; the text is told along with it.
export function openedFile(kif, name, raw) {
  const bom = hasMark(raw);
  const found = asUtf8(bom ? raw.subarray(3) : raw);
  if (found === null) throw new KifError(2, [0, 0]);
  const { encoding } = found;
  const bytes = withLastBreak(found.bytes);
  const unended = bytes !== found.bytes;
  try {
    const read = kif.read(bytes);
    return { name, bytes, bom, encoding, unended, taken: read.taken, record: read.record, beyond: beyondOf(kif, bytes, read) };
  } catch (refusal) {
    if (refusal instanceof KifError) refusal.line = refusedLine(kif, bytes, refusal);
    throw refusal;
  }
}

// The line of a text at which a refusal points, or null.
function refusedLine(kif, bytes, { number, figures }) {
  if (number === 3) return kif.spot(bytes, figures[0]).line;
  return number === 6 ? kif.spot(bytes, figures[5]).line : null;
}

// The record as bytes that other programs read too, and whether they are read back as the same record.
export function writtenFile(kif, record) {
  const { bytes } = record.write();
  try {
    const back = kif.read(bytes).record;
    const same = record.version === 1 ? back.equals(record) : back.restate().equals(record);
    return { bytes, same };
  } catch {
    return { bytes, same: false };
  }
}

// Hands bytes to the browser to be kept as a file.
export function saveFile(name, bytes) {
  const url = URL.createObjectURL(new Blob([bytes], { type: 'text/plain;charset=utf-8' }));
  make('a', { href: url, download: name }).click();
  setTimeout(() => URL.revokeObjectURL(url), 10000);
}
