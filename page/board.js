// The drawn board, both hands and whose turn it is; and beside the drawing the same as a table, which a screen reader can walk through.
import { KINDS } from '../bindings/js/kif.js';
import { draw, find, make } from './dom.js';
import { fileText, rankText } from './spell.js';
import { say } from './words.js';

// Promoted lance, knight and silver have one letter on a board.
const LETTERS = KINDS.map((name) => ({ 成香: '杏', 成桂: '圭', 成銀: '全' })[name] ?? name);
const HAND_ORDER = [7, 6, 5, 4, 3, 2, 1];
const NINE = [1, 2, 3, 4, 5, 6, 7, 8, 9];
const [WIDE, HIGH, LEFT, TOP] = [58, 63, 8, 26];
const OUTLINE = 'M0,-28 L18,-20 L24,27 L-24,27 L-18,-20 Z';

const cornerOf = ({ file, rank }) => ({ x: LEFT + WIDE * (9 - file), y: TOP + HIGH * (rank - 1) });

function letterOf(kind) {
  const lettered = draw('text', { 'text-anchor': 'middle', y: 13 }, LETTERS[kind]);
  if (kind > 8) lettered.setAttribute('class', 'promoted');
  return lettered;
}

// A piece around the origin; White's stands on its head.
function pieceDrawn(code, x, y) {
  const turned = code > 16 ? ' rotate(180)' : '';
  return draw('g', { class: 'piece', transform: `translate(${x},${y})${turned}` }, draw('path', { d: OUTLINE }), letterOf(code % 16));
}

function gridDrawn() {
  const across = Array.from({ length: 10 }, (_, i) => `M${LEFT},${TOP + HIGH * i}h${9 * WIDE}`);
  const down = Array.from({ length: 10 }, (_, i) => `M${LEFT + WIDE * i},${TOP}v${9 * HIGH}`);
  return draw('path', { class: 'grid', d: [...across, ...down].join('') });
}

function labelsDrawn() {
  const files = NINE.map((file) => draw('text', { x: LEFT + WIDE * (9.5 - file), y: TOP - 8, 'text-anchor': 'middle' }, fileText(file)));
  const ranks = NINE.map((rank) => draw('text', { x: LEFT + 9 * WIDE + 14, y: TOP + HIGH * (rank - 0.5) + 6, 'text-anchor': 'middle' }, rankText(rank)));
  return draw('g', { class: 'labels' }, ...files, ...ranks);
}

const starsDrawn = () => [3, 6].flatMap((i) => [3, 6].map((j) => draw('circle', { class: 'star', cx: LEFT + WIDE * i, cy: TOP + HIGH * j, r: 3.5 })));

// A mark on a square, or nothing.
function marked(square, name) {
  if (square === null || NINE[square.file - 1] === undefined || NINE[square.rank - 1] === undefined) return [];
  return [draw('rect', { class: name, ...cornerOf(square), width: WIDE, height: HIGH })];
}

// The same as a table: rows are ranks, and a row goes from file 9 to file 1.
function tableMade() {
  const heads = NINE.map((i) => make('th', { scope: 'col' }, String(10 - i)));
  const cells = new Map();
  const rows = NINE.map((rank) => {
    const row = make('tr', {}, make('th', { scope: 'row' }, String(rank)));
    for (const file of [...NINE].reverse()) {
      const cell = make('td', { 'data-square': `${file}${rank}` });
      cells.set(9 * (file - 1) + (rank - 1), cell);
      row.append(cell);
    }
    return row;
  });
  const caption = make('caption');
  const table = make('table', {}, caption, make('tr', {}, make('td'), ...heads), ...rows);
  return { table: make('div', { class: 'unseen' }, table), caption, cells };
}

// One side's hand.
function showHand(color, counts) {
  const held = HAND_ORDER.filter((kind) => counts[kind - 1] > 0).map((kind) => {
    const drawn = draw('svg', { viewBox: '-30 -32 60 64', 'aria-hidden': 'true' }, pieceDrawn(kind, 0, 0));
    const n = counts[kind - 1];
    const count = make('span', { class: 'count', 'aria-hidden': 'true' }, n > 1 ? String(n) : '');
    return make('li', { 'data-kind': kind, 'data-count': n }, drawn, count, make('span', { class: 'unseen' }, say('inHand', kind, n)));
  });
  const hand = find(`${color}-hand`);
  hand.setAttribute('aria-label', `${say(color)}, ${say('hand')}`);
  hand.replaceChildren(...(held.length > 0 ? held : [make('li', { class: 'none' }, say('none'))]));
}

function showSide(color, turn, name) {
  const side = find(`${color}-side`);
  side.classList.toggle('turn', color === turn);
  find(`${color}-name`).textContent = name === '' ? say(color) : `${say(color)}　${name}`;
  find(`${color}-turn`).textContent = color === turn ? say('toMove') : '';
}

export class Board {
  constructor() {
    this.pieces = draw('g');
    this.marks = draw('g');
    this.codes = new Array(81).fill(0);
    this.drawn = new Array(81).fill(null);
    const wood = draw('rect', { class: 'wood', width: 9 * WIDE + 36, height: 9 * HIGH + 34, rx: 6 });
    const svg = draw('svg', { viewBox: `0 0 ${9 * WIDE + 36} ${9 * HIGH + 34}`, 'aria-hidden': 'true', lang: 'ja' }, wood, this.marks, gridDrawn(), ...starsDrawn(), labelsDrawn(), this.pieces);
    Object.assign(this, tableMade());
    find('board').replaceChildren(svg, this.table);
  }

  // Shows a position and the squares of the move that led to it; only what differs is drawn again.
  show({ position, to, from }, names) {
    find('board').classList.toggle('empty', position === null);
    const cells = position?.cells ?? new Uint8Array(81);
    cells.forEach((code, at) => this.put(at, code));
    this.marks.replaceChildren(...marked(from, 'from'), ...marked(to, 'to'));
    for (const color of ['white', 'black']) {
      showHand(color, position?.hands[color] ?? [0, 0, 0, 0, 0, 0, 0]);
      showSide(color, position?.turn, names[color]);
    }
    this.caption.textContent = say('board');
  }

  put(at, code) {
    if (this.codes[at] === code) return;
    this.codes[at] = code;
    this.drawn[at]?.remove();
    const { x, y } = cornerOf({ file: Math.floor(at / 9) + 1, rank: (at % 9) + 1 });
    this.drawn[at] = code === 0 ? null : pieceDrawn(code, x + WIDE / 2, y + HIGH / 2);
    if (code !== 0) this.pieces.append(this.drawn[at]);
    this.label(at);
  }

  label(at) {
    const code = this.codes[at];
    const cell = this.cells.get(at);
    cell.dataset.code = code;
    cell.textContent = code === 0 ? '' : say('piece', code > 16 ? 'white' : 'black', code % 16);
  }

  // In the language that is spoken.
  relabel() {
    this.codes.forEach((_, at) => this.label(at));
  }
}
