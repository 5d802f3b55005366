// The position to show at a place of a record, the move that led to it, and why there is none.
import { isDrop } from './spell.js';

// The entries of a line, decoded once for a record.
const decodedLines = new WeakMap();
export function entriesOf(record, line) {
  let lines = decodedLines.get(record);
  if (lines === undefined) decodedLines.set(record, (lines = new Map()));
  if (!lines.has(line)) lines.set(line, record.entries(line));
  return lines.get(line);
}

export const entryAt = (record, { line, entry }) => entriesOf(record, line)[entry];

// The place that a variation stands beside. One that hangs on the first move of another variation is one more choice at the move that the other
// stands beside: a text cannot say it otherwise.
export function standsBeside(record, line) {
  let { parent, hangs } = record.lines[line];
  while (hangs === 0 && parent > 0) ({ parent, hangs } = record.lines[parent]);
  return { line: parent, entry: hangs };
}

// The place before a place on the path to it; null before the start.
export function placeBefore(record, { line, entry }) {
  const at = entry === 0 && line > 0 ? standsBeside(record, line) : { line, entry };
  return at.entry > 0 ? { line: at.line, entry: at.entry - 1 } : null;
}

// The last place up to this one that holds a move; null where none does.
function lastMove(record, place) {
  let at = place;
  while (at !== null && entryAt(record, at).type !== 'move') at = placeBefore(record, at);
  return at;
}

// Where the move at a place lands: 同 lands where the move before it did.
function landing(record, place) {
  let at = lastMove(record, place);
  while (at !== null && entryAt(record, at).to === null) at = lastMove(record, placeBefore(record, at));
  return at === null ? null : entryAt(record, at).to;
}

const PROMOTES = [1, 2, 3, 4, 6, 7];
const offBoard = ({ file, rank }) => file < 1 || file > 9 || rank < 1 || rank > 9;
const cellAt = (position, { file, rank }) => position.cells[9 * (file - 1) + (rank - 1)];

function dropHindrance(position, move) {
  if (move.promote === true) return 'NoPromotion';
  if (!(position.hands[position.turn][move.kind - 1] > 0)) return 'NotInHand';
  return 'OntoPiece';
}

function moveHindrance(position, move, to) {
  if (offBoard(move.from)) return 'OffBoard';
  const white = position.turn === 'white' ? 16 : 0;
  if (cellAt(position, move.from) !== white + move.kind) return 'NotThere';
  if (move.promote === true && !PROMOTES.includes(move.kind)) return 'NoPromotion';
  const taken = cellAt(position, to);
  if (taken >= 16 === (white === 16)) return 'OwnPiece';
  return taken % 16 === 8 ? 'King' : 'HandFull';
}

// Why a move that stops the play does so, in the order in which the module looks for it: kif_position tells the place alone.
function hindranceOf(position, move, to) {
  if (to === null) return 'NoneBefore';
  if (offBoard(to)) return 'OffBoard';
  return isDrop(move) ? dropHindrance(position, move) : moveHindrance(position, move, to);
}

// What led to a position that is shown.
function ledTo(record, place) {
  const at = lastMove(record, place);
  if (at === null) return { to: null, from: null };
  const move = entryAt(record, at);
  return { to: landing(record, at), from: isDrop(move) ? null : move.from };
}

// Where play stops, the position before that move is shown.
function shownBefore(record, stopped) {
  const before = placeBefore(record, stopped) ?? { line: 0, entry: 0 };
  const position = record.position(before.line, before.entry);
  const why = hindranceOf(position, entryAt(record, stopped), landing(record, stopped));
  return { position, ...ledTo(record, before), stopped: { ...stopped, why }, refusal: null };
}

// The position at a place, the squares of the last move, and where play stopped; or a refusal and no position.
export function shownAt(record, place) {
  try {
    const position = record.position(place.line, place.entry);
    return { position, ...ledTo(record, place), stopped: null, refusal: null };
  } catch (refusal) {
    if (refusal.number === 17) return shownBefore(record, { line: refusal.figures[0], entry: refusal.figures[1] });
    return { position: null, to: null, from: null, stopped: null, refusal };
  }
}
