// The edits: a variation put in beside the chosen move, and the chosen variation cut out. What is refused is told where it was asked for.
import { button, find, make } from './dom.js';
import { reasonWords } from './beyond.js';
import { tellDone } from './notices.js';
import { entryAt } from './play.js';
import { entryText } from './spell.js';
import { hangingFrom, lineWords, movesIn } from './tree.js';
import { say, sayLine, sayRefusal, sayTheLine } from './words.js';

const numberOf = (line) => {
  const found = /^[ \t]*([0-9]+)/.exec(line);
  return found === null ? null : Number(found[1]);
};

// A text whose last line ends.
const ended = (text) => (text === '' || text.endsWith('\n') ? text : `${text}\n`);

// What is wrong with a line of a variation that should hold a move; null where nothing is.
function moveLineWrong(kif, line, number) {
  const bytes = new TextEncoder().encode(`${line}\n`);
  const stop = kif.stop(bytes);
  if (stop.taken.at < bytes.length) return { column: stop.reached.column, why: reasonWords(stop, bytes) };
  return number === null || numberOf(line) === number ? null : { column: 1, why: say('outOfStep', numberOf(line), number) };
}

// Why a text is not one variation: the first line of it that is neither a move with the next number nor a comment below one.
function whyNotOne(kif, text) {
  let next = null;
  for (const [i, line] of text.split('\n').slice(0, -1).entries()) {
    if (next === null || !/^[*&]/.test(line)) {
      const wrong = numberOf(line) === null ? { column: 1, why: say('notMoveLine') } : moveLineWrong(kif, line, next);
      if (wrong !== null) return say('atSpot', i + 1, wrong.column, wrong.why);
      next = numberOf(line) + 1;
    }
  }
  return say('refusal11');
}

// The last of the variations beside a place, in whose place a further one can be put.
function lastBeside(record, line, entry) {
  let found = null;
  let at = { parent: line, hangs: entry };
  record.lines.forEach(({ parent, hangs }, k) => {
    if (k > 0 && parent === at.parent && hangs === at.hangs) [found, at] = [k, { parent: k, hangs: 0 }];
  });
  return found;
}

export class Edits {
  constructor(kif, game) {
    Object.assign(this, { kif, game, asked: null });
    this.text = find('put-text');
    find('put').addEventListener('click', () => this.put(game.line));
    find('cut').addEventListener('click', () => this.askCut());
  }

  // The words for the chosen place.
  show() {
    const { record, line, entry, ply } = this.game;
    const isStart = line === 0 && entry === 0;
    find('put-label').textContent = isStart ? say('putNowhere') : say('putInto', sayTheLine(line), ply);
    find('put-hint').textContent = isStart ? '' : say('putHint', ply);
    this.text.placeholder = isStart ? '' : `${String(ply).padStart(4)} ${entryText(entryAt(record, { line, entry }))}\n*…`;
    this.text.disabled = isStart;
    find('put').disabled = isStart;
    find('put').textContent = say('put');
    find('cut').textContent = line === 0 ? '' : say('cut', sayTheLine(line));
    find('cut').hidden = line === 0;
    find('cut-none').textContent = line === 0 ? say('cutNone') : '';
    if (this.asked !== line) this.closeCut();
    this.clearRefused();
  }

  // Beside the field: why it was refused, and what may help.
  refuse(words, ...help) {
    find('put-refused').replaceChildren(make('p', {}, words), ...help);
    this.text.setAttribute('aria-invalid', 'true');
  }

  clearRefused() {
    find('put-refused').replaceChildren();
    this.text.removeAttribute('aria-invalid');
  }

  put(line) {
    this.clearRefused();
    const text = ended(this.text.value);
    const { ply } = this.game;
    const number = numberOf(text);
    if (text.trim() === '') return this.refuse(say('noPut'));
    if (number !== null && number !== ply) return this.refuse(say('wrongPly', number, ply), button(say('renumber', ply), () => this.renumber()));
    try {
      const put = this.game.record.putIn(line, text);
      this.text.value = '';
      this.game.edit(put.record, put.line, 0);
      tellDone(say('putDone', sayTheLine(put.line)));
    } catch (refusal) {
      this.refusePut(refusal, text);
    }
  }

  refusePut(refusal, text) {
    if (refusal.number === 11) return this.refuse(whyNotOne(this.kif, text));
    if (refusal.number !== 13) return this.refuse(sayRefusal(refusal));
    const beside = lastBeside(this.game.record, this.game.line, this.game.entry);
    this.refuse(sayRefusal(refusal), button(say('beside', sayTheLine(beside)), () => this.put(beside)));
  }

  // The numbers of the text, from the chosen move's on.
  renumber() {
    let { ply } = this.game;
    this.text.value = this.text.value.replace(/^[ \t]*[0-9]+/gm, () => String(ply++).padStart(4));
    this.clearRefused();
    this.text.focus();
  }

  // What goes with the chosen variation, before it goes.
  askCut() {
    const { record, line } = this.game;
    const gone = hangingFrom(record, line);
    const words = say(gone.length > 0 ? 'cutWith' : 'cutAlone', sayLine(line), movesIn(record, line));
    const list = gone.map((k) => make('li', { 'data-line': k }, lineWords(record, k)));
    const act = button(say('cutDo'), () => this.cut(), { id: 'cut-do', class: 'strong' });
    find('cut-asked').replaceChildren(make('p', {}, words), make('ul', {}, ...list), act, button(say('cancel'), () => this.closeCut(true)));
    this.asked = line;
    act.focus();
  }

  closeCut(back = false) {
    this.asked = null;
    find('cut-asked').replaceChildren();
    if (back) find('cut').focus();
  }

  cut() {
    const { record, line } = this.game;
    const { parent, hangs } = record.lines[line];
    try {
      const cut = record.cut(line);
      this.closeCut();
      this.game.edit(cut.record, parent, hangs);
      tellDone(say('cutDone', cut.removed));
      // the button that had the focus is gone
      find('moves').querySelector('[aria-current]').focus({ preventScroll: true });
    } catch (refusal) {
      find('cut-asked').replaceChildren(make('p', { class: 'refused' }, sayRefusal(refusal)));
    }
  }
}
