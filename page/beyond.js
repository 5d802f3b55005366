// What a file holds beyond what was read: the rest behind the place where reading stopped, the lines that are passed over, and times too large.
// The module itself is asked: a line before the moves says nothing if the text without it gives the same record, and a line among the moves if
// another one in its place does.
import { PRESETS } from '../bindings/js/kif.js';
import { say } from './words.js';

const decodeText = (bytes) => new TextDecoder('utf-8', { ignoreBOM: true }).decode(bytes);
const QUIET = ['手数', '変化', 'まで'];
const isQuiet = (line) => line.trim() === '' || QUIET.some((word) => line.startsWith(word));
// Lines are shown up to this many of a kind.
const SHOWN = 50;

// The words of a reason to stop, which may look at what stands there.
function noNumberWords(here) {
  if (/^[▲△]/u.test(here)) return say('noNumber') + say('maybeKi2');
  return say('noNumber') + (here.startsWith('９ ８') ? say('maybeDiagram') : '');
}

function noOriginWords(before) {
  if (before.endsWith('(')) return say('noDigits');
  return /[0-9]$/.test(before) ? say('noClose') : say('noOrigin');
}

export function reasonWords(stop, bytes) {
  const here = decodeText(bytes.subarray(stop.reached.at, stop.reached.at + 16));
  const before = decodeText(bytes.subarray(Math.max(0, stop.reached.at - 3), stop.reached.at));
  switch (stop.name) {
    case 'NoNumber': return noNumberWords(here);
    case 'TooLarge': return before.endsWith('(') ? say('tooLargeOrigin') : say('tooLarge');
    case 'NoPlace': return /^[１-９]$/u.test(before) ? say('noRank') : say('noPlace');
    case 'NoKind': return say('noKind');
    case 'NoOrigin': return noOriginWords(before);
    case 'NoBreak': return here === '' ? say('noEnd') : say('bareCr');
    case 'CommentHere': return say('commentHere');
    default: return say('endOfText', stop.reached.line - stop.taken.line);
  }
}

// The rest that was not taken: null where nothing is missed by it.
function restOf(kif, bytes) {
  const stop = kif.stop(bytes);
  const rest = decodeText(bytes.subarray(stop.taken.at));
  if (rest.trim() === '') return null;
  if (stop.name !== 'EndOfText') return { stop, text: rest, length: bytes.length - stop.taken.at };
  const meant = rest.split('\n').findIndex((line) => !isQuiet(line));
  return meant < 0 ? null : { stop, text: rest, length: bytes.length - stop.taken.at, meant: stop.taken.line + meant };
}

// Whether a text is read as this record.
function givesSame(kif, record, lines) {
  try {
    return kif.read(lines.join('\n')).record.equals(record);
  } catch {
    return false;
  }
}

// A text without some of its lines, and with others in their place.
const leftOut = (lines, places) => lines.filter((_, i) => !places.has(i));
const stoodFor = (lines, places) => lines.map((line, i) => (places.has(i) ? 'x' : line));

// Of these lines those that can be changed so and the record is the same, found by halves.
function unsaid(kif, record, lines, places, changed) {
  if (places.length === 0) return [];
  if (givesSame(kif, record, changed(lines, new Set(places)))) return places;
  if (places.length === 1) return [];
  const half = places.length >> 1;
  return [places.slice(0, half), places.slice(half)].flatMap((some) => unsaid(kif, record, lines, some, changed));
}

const placesOf = (lines, test) => lines.flatMap((line, i) => (test(line, i) ? [i] : []));

function headWhy(record, line) {
  const key = line.split('：')[0];
  if (line.includes('：') && record.headers.some((header) => header.key === key)) return 'twice';
  return /^(先手|下手|後手|上手)(番|の持駒：)/.test(line) ? 'unused' : 'passed';
}

// The lines before the first move that say nothing.
function headPassed(kif, record, lines, first) {
  const kept = new Set([`手合割：${PRESETS[record.preset]}`, ...record.headers.map(({ key, value }) => `${key}：${value}`)]);
  const looked = (line, i) => i < first && !isQuiet(line) && !/^[#*& \t]/.test(line) && !kept.has(line.replace(/\r$/, ''));
  return unsaid(kif, record, lines, placesOf(lines, looked), leftOut).map((i) => ({ line: i + 1, text: lines[i], why: headWhy(record, lines[i]) }));
}

// What stands behind a move and its time, which is not read; a + there is a program's own mark of a variation.
const MOVE_LINE = /^[ \t]*[0-9]+[ \t]*(?:[^ \t(]+?打|[^ \t(]+\([0-9]+\)|[^ \t(]+)[ \t]*(?:\([ \t]*[0-9:]+[ \t]*\/[ \t]*[0-9:]+[ \t]*\))?[ \t]*\+?\r?(.*)$/u;
const hasTail = (line) => (MOVE_LINE.exec(line)?.[1] ?? '').trim() !== '';

// The lines from the first move on that say nothing: what begins as no move and no comment does, and what an empty line takes along.
function playPassed(kif, record, lines, first) {
  const isPlay = (line) => /^[ \t0-9*&]/.test(line);
  const behindEmpty = (line, i) => i >= first && lines[i - 1] === '' && isPlay(line);
  const hidden = new Set(unsaid(kif, record, lines, placesOf(lines, behindEmpty), stoodFor));
  const whyOf = (line, i) => (!isPlay(line) ? 'passed' : hidden.has(i) ? 'hidden' : hasTail(line) ? 'tail' : null);
  return lines.flatMap((line, i) => {
    const why = i < first || isQuiet(line) || line.startsWith('#') ? null : whyOf(line, i);
    return why === null ? [] : [{ line: i + 1, text: line, why }];
  });
}

// The line of the k-th time that was lost: the first so many lines that lose k of them.
function lostLine(kif, lines, k) {
  let [low, high] = [1, lines.length];
  while (low < high) {
    const middle = (low + high) >> 1;
    if (kif.read(`${lines.slice(0, middle).join('\n')}\n`).lost >= k) high = middle;
    else low = middle + 1;
  }
  return { line: low, text: lines[low - 1], why: 'lostTime' };
}

// All of it. What must be confirmed is more than the # lines, which every program puts into its files.
export function beyondOf(kif, bytes, { record, taken, lost }) {
  const lines = decodeText(bytes.subarray(0, taken)).split('\n');
  const found = lines.findIndex((line) => /^[ \t]*[0-9]/.test(line));
  const first = found < 0 ? lines.length : found;
  const times = Array.from({ length: Math.min(lost, SHOWN) }, (_, k) => lostLine(kif, lines, k + 1));
  const all = [...headPassed(kif, record, lines, first), ...playPassed(kif, record, lines, first), ...times].sort((a, b) => a.line - b.line);
  const hashes = lines.flatMap((line, i) => (line.startsWith('#') ? [{ line: i + 1, text: line }] : []));
  const rest = restOf(kif, bytes);
  return { rest, hashes, passed: all.slice(0, SHOWN), more: Math.max(0, all.length - SHOWN), mustConfirm: rest !== null || all.length > 0 };
}
