// Elements. What a record says goes in as text alone: nothing here or in the other modules takes a string as markup.

export const find = (id) => document.getElementById(id);

function filled(element, named, inside) {
  for (const [name, value] of Object.entries(named)) {
    if (value !== null) element.setAttribute(name, value);
  }
  element.append(...inside);
  return element;
}

// An element with these attributes, but for those that are null, and with these elements and texts inside.
export const make = (tag, named = {}, ...inside) => filled(document.createElement(tag), named, inside);

export const draw = (tag, named = {}, ...inside) => filled(document.createElementNS('http://www.w3.org/2000/svg', tag), named, inside);

// A button that does something.
export function button(words, does, named = {}) {
  const element = make('button', { type: 'button', ...named }, words);
  element.addEventListener('click', does);
  return element;
}

function scrollTo(list, row) {
  const [outer, inner] = [list.getBoundingClientRect(), row.getBoundingClientRect()];
  if (inner.top < outer.top) list.scrollTop -= outer.top - inner.top + 8;
  else if (inner.bottom > outer.bottom) list.scrollTop += inner.bottom - outer.bottom + 8;
}

// The row that each list is to show.
const wantedRows = new WeakMap();

// Rows out of sight have only supposed heights, so it takes some frames until the row stands where it is to be seen.
function scrollOn(list, row, frames) {
  if (wantedRows.get(list) !== row) return;
  scrollTo(list, row);
  if (frames > 0) requestAnimationFrame(() => scrollOn(list, row, frames - 1));
}

// Scrolls a list, and nothing around it, so far that a row of it is seen.
export function reveal(list, row) {
  wantedRows.set(list, row);
  scrollOn(list, row, 6);
}
