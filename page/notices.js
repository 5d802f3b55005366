// What is told of the file and of what was done, below the tools.
import { button, find, make } from './dom.js';
import { reasonWords } from './beyond.js';
import { say, sayRefusal } from './words.js';

// What was done last, or why it was not.
export function tellDone(words, refused = false, ...more) {
  const close = button('×', () => find('done').replaceChildren(), { class: 'close', 'aria-label': say('dismiss') });
  find('done').replaceChildren(make('div', { class: refused ? 'notice refused' : 'notice' }, make('p', {}, words), ...more, close));
}

export const clearDone = () => find('done').replaceChildren();

export function refusalWords(refusal) {
  const words = sayRefusal(refusal);
  return refusal.line ? say('inLine', refusal.line, words) : words;
}

// A line of the file, with the reason why it is not in the record.
const lineTold = ({ line, text }, why) => make('li', {}, make('p', {}, say('inLine', line, why)), make('pre', { lang: 'ja' }, text));

function restTold({ stop, text, length, meant }, bytes) {
  const { line, column } = stop.reached;
  const why = meant === undefined ? say('atSpot', line, column, reasonWords(stop, bytes)) : say('inLine', meant, say('meant'));
  return make('li', {}, make('p', {}, say('rest', stop.taken.line, length)), make('p', {}, why), make('pre', { lang: 'ja', tabindex: 0 }, text));
}

function confirmMade(file, confirmed) {
  const box = make('input', { type: 'checkbox', id: 'confirm' });
  box.checked = file.confirmed === true;
  box.addEventListener('change', () => {
    file.confirmed = box.checked;
    confirmed();
  });
  return make('label', { class: 'confirm' }, box, ` ${say('confirm')}`);
}

// What the file holds beyond what was read, with what must be confirmed.
function beyondMade(file, confirmed) {
  const { rest, passed, more, mustConfirm } = file.beyond;
  if (!mustConfirm) return [];
  const lines = [...(rest === null ? [] : [restTold(rest, file.bytes)]), ...passed.map((line) => lineTold(line, say(line.why)))];
  if (more > 0) lines.push(make('li', {}, say('more', more)));
  return [make('div', { class: 'notice beyond', id: 'beyond' }, make('p', {}, make('strong', {}, say('beyond'))), make('ul', {}, ...lines), confirmMade(file, confirmed))];
}

// The # lines are shown, and need no word.
function hashesMade({ hashes }) {
  if (hashes.length === 0) return [];
  const lines = hashes.map(({ text }) => text).join('\n');
  return [make('details', {}, make('summary', {}, say('hashes', hashes.length)), make('pre', { lang: 'ja' }, lines))];
}

export function showFileNotices(file, confirmed) {
  if (file === null) {
    find('file-notices').replaceChildren(make('p', { class: 'notice quiet' }, say('drop')));
    return;
  }
  const told = [say('readAs', file.name, file.taken, file.encoding)];
  if (file.encoding !== 'UTF-8') told.push(say('shiftJis'));
  if (file.bom) told.push(say('bom'));
  if (file.unended) told.push(say('unended'));
  if (file.record.lines[0].entries === 1) told.push(say('noMoves'));
  const loud = told.length > 1 ? 'notice' : 'notice quiet';
  const lines = told.map((words) => make('p', {}, words));
  find('file-notices').replaceChildren(make('div', { class: loud }, ...lines, ...hashesMade(file.beyond)), ...beyondMade(file, confirmed));
}
