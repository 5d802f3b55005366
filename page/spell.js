// Moves, times and places in words: as a KIF text has them, and as they are read aloud.
import { KINDS, SPECIALS } from '../bindings/js/kif.js';
import { say } from './words.js';

const FILES = ' １２３４５６７８９';
const RANKS = ' 一二三四五六七八九';
const onBoard = ({ file, rank }) => file >= 1 && file <= 9 && rank >= 1 && rank <= 9;
export const isDrop = (move) => move.from === null || (move.from.file === 0 && move.from.rank === 0);

export const fileText = (file) => FILES[file];
export const rankText = (rank) => RANKS[rank];

function squareText(square) {
  if (square === null) return '同　';
  return onBoard(square) ? FILES[square.file] + RANKS[square.rank] : `(${square.file},${square.rank})`;
}

// An entry as a text has it, without its time.
export function entryText(entry) {
  if (entry.type === 'slot') return say('start');
  if (entry.type === 'special') return SPECIALS[entry.special];
  const promotes = entry.promote === null ? '' : entry.promote ? '成' : '不成';
  const origin = isDrop(entry) ? '打' : `(${entry.from.file}${entry.from.rank})`;
  return squareText(entry.to) + KINDS[entry.kind] + promotes + origin;
}

// With the mark of its side.
export function markedText(entry) {
  if (entry.type !== 'move') return entryText(entry);
  return (entry.color === 'black' ? '▲' : '△') + entryText(entry);
}

// As it is read aloud.
export function spokenText(entry, ply) {
  if (entry.type === 'slot') return say('start');
  if (entry.type === 'special') return say('spokenSpecial', ply, entry.special);
  return say('spokenMove', ply, entry, isDrop(entry));
}

const two = (n) => String(n).padStart(2, '0');

function clockText({ hour, minute, second }) {
  return hour === null ? `${minute}:${two(second)}` : `${hour}:${two(minute)}:${two(second)}`;
}

export const timeTexts = ({ now, total }) => [clockText(now), clockText(total)];
