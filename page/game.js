// The record that is shown, the chosen place in it, and the records before and behind it. Records are values, so what was is kept as it was.
export class Game {
  constructor(record, shows) {
    this.shows = shows;
    this.open(record);
  }

  open(record) {
    Object.assign(this, { record, line: 0, entry: 0, past: [], future: [], saved: record });
    this.shows();
  }

  get isEdited() {
    return this.record !== this.saved;
  }

  get ply() {
    return this.record.lines[this.line].start + this.entry;
  }

  choose(line, entry) {
    const last = this.record.lines[line].entries - 1;
    Object.assign(this, { line, entry: Math.max(0, Math.min(entry, last)) });
    this.shows();
  }

  // A line from its first move on; the main line from the start.
  enter(line) {
    this.choose(line, 0);
  }

  #state() {
    return { record: this.record, line: this.line, entry: this.entry };
  }

  // Another record in the place of this one, which undo brings back.
  edit(record, line, entry) {
    this.past.push(this.#state());
    Object.assign(this, { record, line, entry, future: [] });
    this.shows();
  }

  #swap(from, to) {
    const state = from.pop();
    if (state === undefined) return false;
    to.push(this.#state());
    Object.assign(this, state);
    this.shows();
    return true;
  }

  undo() {
    return this.#swap(this.past, this.future);
  }

  redo() {
    return this.#swap(this.future, this.past);
  }
}
