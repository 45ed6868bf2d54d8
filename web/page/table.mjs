// Tables with any number of rows, which sort and filter. Only the rows in view are in the document.
import { element } from './dom.mjs';
import { compared, counted, grouped } from './numbers.mjs';

// Pixels: the height of a row, which style.css sets, and of the rows that are in view at most.
const ROW = 28, VIEW = 560;
// Rows in the document above and below those in view; a table with at most ALL rows is in the document whole.
const SPARE = 20, ALL = 200;

const isNumber = value => typeof value === 'bigint';

/** Compares two cells: numbers by value, texts by the numbers in them, empty ones last. */
const collator = new Intl.Collator(undefined, { numeric: true });
function compareCells(one, two) {
  if (isNumber(one) && isNumber(two)) return compared(one, two);
  return collator.compare(String(one), String(two));
}

/**
 * A table. `columns` are { title, kind } with kind 'text' or 'number'; `rows` are { cells, kind, isUsed }, whose cells are texts or
 * big integers. `usedText` is the label of the box that shows only the rows with `isUsed`; without it there is no such box.
 */
export class Table {
  constructor(title, columns, rows, usedText = '') {
    Object.assign(this, { title, columns, rows, shown: rows, sorted: -1, isDown: false, first: -1, last: -1 });
    this.body = element('tbody');
    this.head = element('tr', {}, ...columns.map((column, here) => this.heading(column, here)));
    const table = element('table', { 'aria-rowcount': rows.length + 1 }, element('thead', {}, this.head), this.body);
    this.view = element('div', { class: 'view', tabindex: 0, role: 'region', 'aria-label': `Table ${title}`, onscroll: () => this.fill() }, table);
    this.count = element('span', { class: 'dim', role: 'status' });
    this.element = element('div', { class: 'table' }, this.tools(usedText), this.view);
    this.fill(true);
  }

  heading({ title, kind }, here) {
    const sort = element('button', { type: 'button', title: `Sort by ${title}`, onclick: () => this.sort(here) }, title);
    return element('th', { class: kind, scope: 'col' }, sort);
  }

  tools(usedText) {
    if (this.rows.length < 12 && !usedText) return '';
    this.words = element('input', { type: 'search', 'aria-label': `Find in ${this.title}`, placeholder: 'Find', oninput: () => this.find() });
    this.used = usedText ? element('input', { type: 'checkbox', onchange: () => this.find() }) : null;
    const used = this.used ? element('label', {}, this.used, ` ${usedText}`) : '';
    return element('p', { class: 'tools' }, this.rows.length < 12 ? '' : this.words, used, this.count);
  }

  sort(here) {
    this.isDown = this.sorted === here && !this.isDown;
    this.sorted = here;
    [...this.head.children].forEach((it, at) => {
      if (at === here) it.setAttribute('aria-sort', this.isDown ? 'descending' : 'ascending');
      else it.removeAttribute('aria-sort');
    });
    const sign = this.isDown ? -1 : 1, isEmpty = row => row.cells[here] === '';
    this.rows = [...this.rows].sort((one, two) => isEmpty(one) - isEmpty(two) || sign * compareCells(one.cells[here], two.cells[here]));
    this.find();
  }

  /** Shows the rows that contain every word of the search. */
  find() {
    const words = (this.words?.value ?? '').toLowerCase().split(' ').filter(Boolean), isUsedOnly = this.used?.checked;
    const isFound = row => (!isUsedOnly || row.isUsed) && words.every(it => this.textOf(row).includes(it));
    this.shown = words.length || isUsedOnly ? this.rows.filter(isFound) : this.rows;
    const left = this.shown.length < this.rows.length ? `${grouped(this.shown.length)} of ` : '';
    this.count.textContent = left + counted(this.rows.length, 'row');
    this.view.scrollTop = 0;
    this.fill(true);
  }

  textOf(row) {
    row.text ??= row.cells.map(String).join('\n').toLowerCase();
    return row.text;
  }

  /** Puts the rows in view into the document, between two rows as high as those that are left out. */
  fill(isNew = false) {
    const count = this.shown.length, at = Math.floor(this.view.scrollTop / ROW);
    const first = count <= ALL ? 0 : Math.max(0, at - SPARE), last = count <= ALL ? count : Math.min(count, at + Math.ceil(VIEW / ROW) + SPARE);
    if (!isNew && first === this.first && last === this.last) return;
    Object.assign(this, { first, last });
    const rows = this.shown.slice(first, last).map((row, here) => this.row(row, first + here));
    this.body.replaceChildren(this.gap(first), ...rows, this.gap(count - last));
    this.count.textContent ||= counted(count, 'row');
  }

  row(row, number) {
    const cells = row.cells.map((it, here) => element('td', { class: this.columns[here].kind }, isNumber(it) ? grouped(it) : it));
    return element('tr', { class: row.kind || null, 'aria-rowindex': number + 2 }, ...cells);
  }

  gap(rows) {
    const cell = element('td', { colspan: this.columns.length, 'aria-hidden': 'true', class: 'gap' });
    cell.style.height = `${rows * ROW}px`;
    const gap = element('tr', { 'aria-hidden': 'true' }, cell);
    gap.hidden = !rows;
    return gap;
  }
}
