// The lines of a record as a tree: under each line the variations that hang on it, by the number of the move that they stand beside.
import { find, make, reveal } from './dom.js';
import { entriesOf, standsBeside } from './play.js';
import { markedText } from './spell.js';
import { say, sayLine, sayTheLine } from './words.js';

// How deep lines are set below one another; what is deeper stands beside the deepest.
const DEEPEST = 24;

// The variations below each line, in the order of play.
function childrenOf(record) {
  const children = record.lines.map(() => []);
  const depth = [0];
  const above = [0];
  record.lines.slice(1).forEach((_, i) => {
    const { line } = standsBeside(record, i + 1);
    const host = depth[line] < DEEPEST ? line : above[line];
    above.push(host);
    depth.push(depth[host] + 1);
    children[host].push(i + 1);
  });
  const byStart = (a, b) => record.lines[a].start - record.lines[b].start;
  return children.map((below) => below.sort(byStart));
}

// How many moves a line has; the slot is none.
export const movesIn = (record, line) => record.lines[line].entries - (line === 0 ? 1 : 0);

// A line in words: where it hangs, its first move and its length.
export function lineWords(record, line) {
  if (line === 0) return `${say('main')}, ${say('countMoves', movesIn(record, 0))}`;
  const { parent, start } = record.lines[line];
  return `${sayLine(line)}, ${markedText(entriesOf(record, line)[0])}, ${say('hangsAt', sayTheLine(parent), start)}, ${say('countMoves', movesIn(record, line))}`;
}

// All lines that a line takes along when it is cut: those whose chain of parents leads to it.
export function hangingFrom(record, line) {
  const found = [];
  record.lines.forEach(({ parent }, k) => {
    if (k > line && (parent === line || found.includes(parent))) found.push(k);
  });
  return found;
}

function rowMade(record, line) {
  const commented = entriesOf(record, line).some((entry) => entry.comments.length > 0);
  const shown = line === 0 ? say('main') : markedText(entriesOf(record, line)[0]);
  const ply = line === 0 ? '' : String(record.lines[line].start);
  const count = make('span', { class: 'size' }, `${commented ? '✎ ' : ''}${say('countMoves', movesIn(record, line))}`);
  // one that hangs on the first move of another variation stands beside it, and goes with it when that one is cut
  const nested = line > 0 && record.lines[line].hangs === 0 && record.lines[line].parent > 0;
  return make('span', { class: nested ? 'row nested' : 'row', 'data-line': line, title: lineWords(record, line) }, make('span', { class: 'ply' }, ply), make('span', { class: 'text', lang: line === 0 ? null : 'ja' }, shown), count);
}

export class Tree {
  constructor(game) {
    this.game = game;
    this.root = find('tree');
    this.root.addEventListener('click', (event) => this.clicked(event));
    this.root.addEventListener('keydown', (event) => this.pressed(event));
  }

  build() {
    const { record } = this.game;
    this.children = childrenOf(record);
    this.items = new Map();
    this.order = [];
    this.current = undefined;
    this.root.replaceChildren(this.itemMade(record, 0, 1));
    this.root.setAttribute('aria-label', say('tree'));
  }

  // A line with those below it.
  itemMade(record, line, level) {
    const item = make('li', { role: 'treeitem', 'aria-level': level, 'aria-label': lineWords(record, line), 'aria-selected': 'false', tabindex: -1 }, rowMade(record, line));
    this.items.set(line, item);
    this.order.push(line);
    const below = this.children[line];
    if (below.length > 0) item.append(make('ul', { role: 'group' }, ...below.map((k) => this.itemMade(record, k, level + 1))));
    return item;
  }

  mark() {
    const held = this.root.contains(document.activeElement);
    if (this.current !== undefined) {
      this.current.setAttribute('aria-selected', 'false');
      this.current.tabIndex = -1;
    }
    this.current = this.items.get(this.game.line);
    this.current.setAttribute('aria-selected', 'true');
    this.current.tabIndex = 0;
    reveal(this.root, this.current.firstChild);
    if (held) this.current.focus({ preventScroll: true });
  }

  // The line so many rows below the chosen one.
  beside(steps) {
    return this.order[this.order.indexOf(this.game.line) + steps];
  }

  clicked(event) {
    const row = event.target.closest('.row');
    if (row !== null) this.game.enter(Number(row.dataset.line));
  }

  pressed(event) {
    if (event.key !== 'Enter' && event.key !== ' ') return;
    event.preventDefault();
    this.game.enter(this.game.line);
  }
}
