// What stands before the moves: the header entries and the handicap; the title of the page and the players' names are taken from them.
import { find, make } from './dom.js';
import { say } from './words.js';

const valueOf = (record, ...keys) => {
  const header = record.headers.find(({ key }) => keys.includes(key));
  return header === undefined ? '' : header.value;
};

export const namesOf = (record) => ({ black: valueOf(record, '先手', '下手'), white: valueOf(record, '後手', '上手') });

// A title from the record, or else the file's name.
function titleOf(record, name) {
  const { black, white } = namesOf(record);
  const players = black !== '' && white !== '' ? `${black} – ${white}` : '';
  return valueOf(record, '表題') || valueOf(record, '棋戦') || players || name || say('page');
}

export function showAbout(record, name) {
  const title = titleOf(record, name);
  find('title').textContent = title;
  document.title = title;
  const preset = record.diagram === null ? say('presetName', record.preset) : say('drawn');
  const rows = [{ key: say('preset'), value: preset }, ...record.headers];
  find('about').replaceChildren(...rows.flatMap(({ key, value }) => [make('dt', {}, key), make('dd', {}, value)]));
}
