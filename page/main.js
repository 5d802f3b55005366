// The page: the module and perhaps a record are inside it; what is chosen is shown, and keys and buttons choose.
import { KifError, load } from '../bindings/js/kif.js';
import { button, find, make } from './dom.js';
import { changeLanguage, say, sayLine, sayTheLine } from './words.js';
import { entryAt, placeBefore, shownAt } from './play.js';
import { entryText, markedText, spokenText } from './spell.js';
import { Game } from './game.js';
import { Board } from './board.js';
import { Moves } from './moves.js';
import { Tree } from './tree.js';
import { Edits } from './edits.js';
import { namesOf, showAbout } from './about.js';
import { openedFile, saveFile, writtenFile } from './files.js';
import { clearDone, refusalWords, showFileNotices, tellDone } from './notices.js';

// Base64 that stands in the page.
const bytesIn = (text) => Uint8Array.from(atob(text.trim()), (character) => character.charCodeAt(0));

const EMPTY = '手合割：平手\n';
// Far more than is read, and little enough to look at.
const LARGEST = 1000000;

class Page {
  constructor(kif) {
    this.kif = kif;
    this.file = null;
    this.shown = {};
    this.game = new Game(kif.read(EMPTY).record, () => this.show());
    this.board = new Board();
    this.moves = new Moves(this.game);
    this.tree = new Tree(this.game);
    this.edits = new Edits(kif, this.game);
    this.listen();
    this.speak();
  }

  // Shows what is chosen; what does not differ from what is shown stays.
  show() {
    if (this.edits === undefined) return;
    const { record, line } = this.game;
    if (record !== this.shown.record) {
      this.moves.forget();
      this.tree.build();
      this.showTools();
      this.names = namesOf(record);
      showAbout(record, this.file?.name);
    }
    if (record !== this.shown.record || line !== this.shown.line) this.moves.build();
    this.shown = { record, line };
    this.showPlace();
  }

  showPlace() {
    const shown = shownAt(this.game.record, this.game);
    this.board.show(shown, this.names);
    this.showTrouble(shown);
    this.showNow();
    this.tree.mark();
    this.speakMove(this.moves.mark());
    this.edits.show();
  }

  // Why the board is not the one after the chosen move.
  showTrouble({ stopped, refusal }) {
    const { record } = this.game;
    let words = refusal === null ? '' : say('noBoard', refusalWords(refusal));
    if (stopped !== null) {
      const ply = record.lines[stopped.line].start + stopped.entry;
      words = say('stopped', sayTheLine(stopped.line), ply, entryText(entryAt(record, stopped)), say(stopped.why));
    }
    find('trouble').textContent = words;
  }

  // The chosen move and its comments.
  showNow() {
    const { record, ply } = this.game;
    const entry = entryAt(record, this.game);
    find('now-move').textContent = entry.type === 'slot' ? say('start') : `${ply}　${markedText(entry)}`;
    find('now-line').textContent = sayLine(this.game.line);
    const comments = entry.comments.map((comment) => make('p', {}, comment));
    find('now-comments').replaceChildren(...(comments.length > 0 ? comments : [make('p', { class: 'faint' }, say('noComment'))]));
  }

  // For a screen reader; where the focus went along in the list of moves, it has read the move already.
  speakMove(isRead) {
    const entry = entryAt(this.game.record, this.game);
    const told = [isRead ? '' : spokenText(entry, this.game.ply), ...entry.comments, find('trouble').textContent];
    find('said').textContent = told.filter((words) => words !== '').join('. ');
  }

  showTools() {
    find('undo').disabled = this.game.past.length === 0;
    find('redo').disabled = this.game.future.length === 0;
    const unseen = this.file?.beyond.mustConfirm === true && this.file.confirmed !== true;
    find('save').disabled = this.file === null || unseen;
    find('save-why').textContent = unseen ? say('mustConfirm') : '';
  }

  // All words in the language that is chosen.
  speak() {
    document.documentElement.lang = say('language');
    for (const element of document.querySelectorAll('[data-word]')) element.textContent = say(element.dataset.word);
    for (const element of document.querySelectorAll('[data-label]')) {
      element.setAttribute('aria-label', say(element.dataset.label));
      if (element.matches('button')) element.title = say(element.dataset.label);
    }
    clearDone();
    showFileNotices(this.file, () => this.showTools());
    this.shown = {};
    this.show();
    this.board.relabel();
  }

  // Steps along the path: back from the first move of a variation is the move before the one that it stands beside.
  step(steps) {
    const { line, entry } = this.game;
    if (steps > 0) return this.game.choose(line, entry + steps);
    const before = placeBefore(this.game.record, { line, entry });
    if (before !== null) this.game.choose(before.line, before.entry);
  }

  toLine(steps) {
    const line = this.tree.beside(steps);
    if (line !== undefined) this.game.enter(line);
  }

  walks() {
    return {
      ArrowLeft: () => this.step(-1),
      ArrowRight: () => this.step(1),
      ArrowUp: () => this.toLine(-1),
      ArrowDown: () => this.toLine(1),
      Home: () => this.game.choose(this.game.line, 0),
      End: () => this.game.choose(this.game.line, Infinity),
    };
  }

  listen() {
    const walks = this.walks();
    const named = { first: 'Home', previous: 'ArrowLeft', next: 'ArrowRight', last: 'End', up: 'ArrowUp', down: 'ArrowDown' };
    for (const [id, key] of Object.entries(named)) find(id).addEventListener('click', walks[key]);
    document.addEventListener('keydown', (event) => this.pressed(event, walks));
    find('undo').addEventListener('click', () => this.undo());
    find('redo').addEventListener('click', () => this.redo());
    find('save').addEventListener('click', () => this.save());
    find('language').addEventListener('click', () => {
      changeLanguage();
      this.speak();
    });
    this.listenFiles();
  }

  listenFiles() {
    const input = find('file');
    find('open').addEventListener('click', () => input.click());
    input.addEventListener('change', () => this.take(input.files[0]).then(() => (input.value = '')));
    document.addEventListener('dragover', (event) => event.preventDefault());
    document.addEventListener('drop', (event) => {
      event.preventDefault();
      this.take(event.dataTransfer.files[0]);
    });
    window.addEventListener('beforeunload', (event) => this.game.isEdited && event.preventDefault());
  }

  pressed(event, walks) {
    if (event.ctrlKey || event.metaKey) return this.pressedWithControl(event);
    if (event.altKey || event.shiftKey || event.target.closest('textarea, input, pre') !== null) return;
    const walk = walks[event.key];
    if (walk === undefined) return;
    event.preventDefault();
    walk();
  }

  pressedWithControl(event) {
    const key = event.key.toLowerCase();
    const does = { s: () => !find('save').disabled && this.save(), z: () => (event.shiftKey ? this.redo() : this.undo()), y: () => this.redo() }[key];
    if (does === undefined || (key !== 's' && event.target.closest('textarea, input') !== null)) return;
    event.preventDefault();
    does();
  }

  undo() {
    if (this.game.undo()) tellDone(say('undone'));
  }

  redo() {
    if (this.game.redo()) tellDone(say('redone'));
  }

  // A chosen or dropped file; edits that are not saved are asked about first.
  async take(file) {
    if (file === undefined) return;
    if (file.size > LARGEST) return this.refuseFile(file.name, new KifError(1, [file.size, 0]));
    const bytes = new Uint8Array(await file.arrayBuffer());
    if (!this.game.isEdited) return this.open(file.name, bytes);
    const anyway = button(say('openAnyway'), () => this.open(file.name, bytes));
    tellDone(say('unsaved', file.name), true, anyway, button(say('keep'), clearDone));
  }

  open(name, bytes) {
    const began = performance.now();
    clearDone();
    try {
      const file = openedFile(this.kif, name, bytes);
      this.file = file;
      this.game.open(file.record);
      showFileNotices(file, () => this.showTools());
    } catch (refusal) {
      this.refuseFile(name, refusal);
    }
    performance.measure('open', { start: began });
  }

  refuseFile(name, refusal) {
    if (!(refusal instanceof KifError)) throw refusal;
    tellDone(say('refusedFile', name, refusalWords(refusal)), true);
  }

  // Saves the record; what would not be read back as the same one is asked about first.
  save(anyway = false) {
    try {
      const written = writtenFile(this.kif, this.game.record);
      if (written.same || anyway) return this.keep(written);
      tellDone(say('notBack'), true, button(say('saveAnyway'), () => this.save(true)), button(say('cancel'), clearDone));
    } catch (refusal) {
      if (!(refusal instanceof KifError)) throw refusal;
      tellDone(say('notSaved', refusalWords(refusal)), true);
    }
  }

  keep({ bytes, same }) {
    const { name } = this.file;
    saveFile(name, bytes);
    this.game.saved = this.game.record;
    tellDone(say(same ? 'saved' : 'savedOther', name, bytes.length));
  }
}

const page = new Page(await load(bytesIn(find('module').textContent)));
const inside = find('record');
if (inside !== null) page.open(new TextDecoder().decode(bytesIn(inside.dataset.name)), bytesIn(inside.textContent));
find('edit').open = inside === null;
document.body.dataset.ready = 'yes';
