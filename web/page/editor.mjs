// The two editors: a text area with line numbers, which takes files.
import { byId, save } from './dom.mjs';
import { decoded, encoded, lineAt, firstToken } from './bytes.mjs';

/** The editor of the model or the data. */
export class Editor {
  constructor(name, changed) {
    this.name = name;
    this.area = byId(name);
    this.numbers = byId(`${name}-numbers`);
    this.changed = changed;
    // The bytes of a file as it was opened, until it is edited: a file that is not UTF-8 has to be rejected as it is.
    this.file = null;
    // Whether the text has changed since it was opened or saved, and the name of its file.
    this.isChanged = false;
    this.fileName = this.usualName = `model.${name === 'model' ? 'mod' : 'dat'}`;
    this.badRow = 0;
    this.area.addEventListener('input', () => {
      this.file = null;
      this.isChanged = true;
      this.badRow = 0;
      this.count();
      changed();
    });
    this.area.addEventListener('scroll', () => this.number());
    byId(`${name}-save`).addEventListener('click', () => {
      save(this.fileName, this.bytes(), 'text/plain');
      this.isChanged = false;
    });
    new ResizeObserver(() => this.number()).observe(this.area);
    this.count();
  }

  bytes() {
    return this.file ?? encoded(this.area.value);
  }

  /** Shows the bytes of a file of this name. */
  show(bytes, fileName = '') {
    this.area.value = decoded(bytes);
    this.file = bytes;
    this.fileName = fileName || this.usualName;
    this.isChanged = false;
    this.badRow = 0;
    this.count();
    this.area.scrollTo(0, 0);
    this.changed();
  }

  /** Adds a statement at the end, and moves there. */
  append(text) {
    const old = this.area.value;
    this.show(encoded(`${old}${old && !old.endsWith('\n') ? '\n' : ''}${text}\n`), this.fileName);
    this.isChanged = true;
    this.area.scrollTop = this.area.scrollHeight;
  }

  count() {
    this.lines = this.area.value.split('\n').length;
    this.number();
  }

  rowHeight() {
    return parseFloat(getComputedStyle(this.area).lineHeight);
  }

  /** Shows the numbers of the lines in view. */
  number() {
    const height = this.rowHeight(), first = Math.floor(this.area.scrollTop / height), shown = Math.ceil(this.area.clientHeight / height) + 1;
    const rows = [];
    for (let row = first + 1; row <= Math.min(this.lines, first + shown); row++) {
      const line = document.createElement('div');
      line.textContent = row;
      if (row === this.badRow) line.className = 'bad';
      rows.push(line);
    }
    this.numbers.replaceChildren(...rows);
    this.numbers.style.transform = `translateY(${first * height - this.area.scrollTop}px)`;
    this.numbers.style.minWidth = `${String(this.lines).length + 2}ch`;
  }

  clearError() {
    this.badRow = 0;
    this.area.removeAttribute('aria-invalid');
    this.number();
  }

  /** Marks the line of an error. */
  markError(row) {
    this.badRow = row;
    this.area.setAttribute('aria-invalid', 'true');
    this.number();
  }

  /** Selects what is wrong in a line, and moves it into view. */
  goToError(row, column) {
    const { before, line } = lineAt(this.bytes(), row, column), text = this.area.value;
    let start = 0;
    for (let here = 1; here < row; here++) start = text.indexOf('\n', start) + 1;
    const from = start + before.length, token = firstToken(line.slice(before.length));
    this.area.closest('.box').scrollIntoView({ block: 'nearest' });
    this.area.focus({ preventScroll: true });
    this.area.setSelectionRange(from, from + Math.max(token.length, line.length > before.length ? 1 : 0));
    this.area.scrollTop = Math.max(0, (row - 4) * this.rowHeight());
    const letter = this.letterWidth(), left = before.length * letter, wide = this.area.clientWidth;
    this.area.scrollLeft = left + 12 * letter > wide ? left - wide / 2 : 0;
    this.number();
  }

  letterWidth() {
    const probe = document.createElement('span');
    probe.className = 'probe';
    probe.textContent = '0'.repeat(100);
    document.body.append(probe);
    const width = probe.getBoundingClientRect().width / 100;
    probe.remove();
    return width;
  }
}
