// The moves of the chosen line: each with its number, time and comments, and the variations that hang on it.
import { button, find, make, reveal } from './dom.js';
import { entriesOf, entryAt, placeBefore, standsBeside } from './play.js';
import { entryText, markedText, spokenText, timeTexts } from './spell.js';
import { say, sayLine, sayTheLine } from './words.js';

// The variations that stand beside each entry of a line.
function forksOf(record, line) {
  const forks = new Map();
  for (let k = line + 1; k < record.lines.length; k += 1) {
    const at = standsBeside(record, k);
    if (at.line === line) forks.set(at.entry, [...(forks.get(at.entry) ?? []), k]);
  }
  return forks;
}

function timeMade(time) {
  if (time === null || time === undefined) return [];
  const [now, total] = timeTexts(time);
  return [make('span', { class: 'time' }, now, make('span', { class: 'total' }, total))];
}

// From where a variation goes on, with the way back.
function leadMade(game) {
  const { record, line } = game;
  const beside = standsBeside(record, line);
  const { start } = record.lines[line];
  const before = placeBefore(record, { line, entry: 0 });
  const words = start > 1 && before !== null ? say('after', sayTheLine(before.line), start - 1, entryText(entryAt(record, before))) : say('hangsAt', sayTheLine(beside.line), start);
  return make('li', { class: 'lead' }, make('span', {}, words), button(say('back', sayTheLine(beside.line)), () => game.choose(beside.line, beside.entry), { class: 'fork' }));
}

function entryMade(game, e, entry, forks) {
  const { record, line } = game;
  const ply = record.lines[line].start + e;
  const number = make('span', { class: 'ply' }, entry.type === 'slot' ? '' : String(ply));
  const text = make('span', { class: 'text', lang: entry.type === 'slot' ? null : 'ja' }, markedText(entry));
  const named = { class: 'move', tabindex: -1, 'data-entry': e, 'aria-label': spokenText(entry, ply) };
  const move = button(number, () => game.choose(line, e), named);
  move.append(text, ...timeMade(entry.time));
  const comments = entry.comments.map((comment) => make('p', { class: 'comment' }, comment));
  const others = forks.map((k) => button(`${sayLine(k)}　${markedText(entriesOf(record, k)[0])}`, () => game.choose(k, 0), { class: 'fork' }));
  return make('li', {}, move, ...comments, ...(others.length > 0 ? [make('div', { class: 'forks' }, ...others)] : []));
}

export class Moves {
  constructor(game) {
    this.game = game;
    this.list = find('moves');
    this.isHeld = false;
    this.forget();
  }

  // The rows of a line, which are kept for the next time.
  build() {
    const { line } = this.game;
    if (!this.made.has(line)) this.made.set(line, this.rowsMade());
    const rows = this.made.get(line);
    this.isHeld ||= this.list.contains(document.activeElement);
    this.unmark();
    this.buttons = rows.map((row) => row.querySelector('.move')).filter((move) => move !== null);
    this.list.replaceChildren(...rows);
    this.list.scrollTop = 0;
    find('moves-of').textContent = sayLine(line);
  }

  rowsMade() {
    const { record, line } = this.game;
    const forks = forksOf(record, line);
    const rows = entriesOf(record, line).map((entry, e) => entryMade(this.game, e, entry, forks.get(e) ?? []));
    return line > 0 ? [leadMade(this.game), ...rows] : rows;
  }

  // Another record, or other words.
  forget() {
    this.made = new Map();
  }

  unmark() {
    if (this.current === undefined) return;
    this.current.removeAttribute('aria-current');
    this.current.tabIndex = -1;
  }

  // Marks the chosen move; the focus goes along where it is in the list, or was before other rows came. Whether it does.
  mark() {
    const held = this.isHeld || this.list.contains(document.activeElement);
    this.isHeld = false;
    this.unmark();
    this.current = this.buttons[this.game.entry];
    this.current.setAttribute('aria-current', 'step');
    this.current.tabIndex = 0;
    reveal(this.list, this.current.parentElement);
    if (held) this.current.focus({ preventScroll: true });
    return held;
  }
}
