// Statements of a data file from tables of comma-separated values. The twin of netflow-sheet's `list`, `grid` and `set`: a test compares
// what both write.

const PLAIN_NAME = /^(?!(?:set|param|data|end|default)$)[A-Za-z_]\w*$/;
const KEY_NUMBER = /^(?:-?[1-9][0-9]{0,11}|0)$/;
const NUMERAL = /^([+-]?)(?:(\d+)(?:\.(\d*))?|\.(\d+))(?:[eE]([+-]?\d{1,4}))?$/;
const LIKE_NUMBER = /^[+\-\u2212]?[0-9][0-9.,'\u2019\u00a0\u202f ]*(?:[eE][+-]?[0-9]+)?%?$/;
const ERROR_VALUE = /^#(?:N\/A|REF!|DIV\/0!|VALUE!|NAME\?|NUM!|NULL!)$/;
const LARGEST = 10n ** 12n;

/** What is wrong with a cell or a table. */
export class SheetError extends Error {}

/** Returns the text of a file's bytes: UTF-8, or UTF-16 with a mark at its start. */
export function textOfSheet(bytes) {
  const isWide = (bytes[0] === 0xff && bytes[1] === 0xfe) || (bytes[0] === 0xfe && bytes[1] === 0xff);
  const name = isWide ? (bytes[0] === 0xff ? 'utf-16le' : 'utf-16be') : 'utf-8';
  try {
    return new TextDecoder(name, { fatal: true }).decode(bytes);
  } catch {
    throw new SheetError('The file is not UTF-8. Save it as CSV in UTF-8.');
  }
}

/** Returns the rows of a table that are not empty, without empty cells at their ends. The first row shows what separates cells. */
export function readRows(text) {
  const first = text.split(/\r\n|[\r\n]/).find(it => it.trim()) ?? '';
  const count = mark => first.split(mark).length, mark = [',', ';', '\t'].reduce((best, it) => (count(it) > count(best) ? it : best));
  const rows = [];
  let cells = [], cell = '', isQuoted = false;
  const endCell = () => { cells.push(cell.trim()); cell = ''; };
  const endRow = () => { endCell(); rows.push(cells); cells = []; };
  for (let at = 0; at < text.length; at++) {
    const letter = text[at];
    if (isQuoted) {
      if (letter !== '"') cell += letter;
      else if (text[at + 1] === '"') cell += text[++at];
      else isQuoted = false;
    } else if (letter === '"' && !cell) isQuoted = true;
    else if (letter === mark) endCell();
    else if (letter === '\n' || letter === '\r') {
      if (letter === '\r' && text[at + 1] === '\n') at++;
      endRow();
    } else cell += letter;
  }
  if (cell || cells.length) endRow();
  const placed = rows.map((row, number) => trimmed(row).map((it, column) => ({ text: it, place: `${letters(column)}${number + 1}` })));
  const found = placed.filter(it => it.length);
  if (!found.length) throw new SheetError('The table is empty.');
  return found;
}

function trimmed(row) {
  let end = row.length;
  while (end && !row[end - 1]) end--;
  return row.slice(0, end);
}

const letters = column => (column >= 26 ? letters(Math.floor(column / 26) - 1) : '') + String.fromCharCode(65 + column % 26);

const EMPTY = { text: '', place: '' };

const filled = (row, width) => Array.from({ length: width }, (_, here) => row[here] ?? { ...EMPTY, place: `next to ${row.at(-1).place}` });

function reject(cell, why) {
  throw new SheetError(`Cell ${cell.place}: ${cell.text ? `'${cell.text}' ` : ''}${why}`);
}

/** Returns a cell as a member: a whole number as one, all else as a text, with quotes if it needs them. */
function member(cell) {
  if (!cell.text) reject(cell, 'the cell is empty, and a name or number is needed here.');
  if (PLAIN_NAME.test(cell.text) || KEY_NUMBER.test(cell.text)) return cell.text;
  if (/[\u0000-\u001f\u007f]/.test(cell.text)) reject(cell, 'has a line end or another character that no name can have.');
  return `'${cell.text.replaceAll("'", "''")}'`;
}

/** Returns a cell as a value: a point if it is empty, a number times the factor, or a text. */
function value(cell, { factor = 1n, hasComma = false }) {
  if (!cell.text) return '.';
  if (ERROR_VALUE.test(cell.text)) reject(cell, 'is an error value of the spreadsheet. Write the number, or leave the cell empty.');
  const text = hasComma && /^[+-]?\d*,\d+$/.test(cell.text) ? cell.text.replace(',', '.') : cell.text, numeral = NUMERAL.exec(text);
  if (numeral) return number(cell, numeral, text, factor);
  if (LIKE_NUMBER.test(cell.text)) reject(cell, 'is no number in plain digits. Take marks and units out of it, or choose decimal commas.');
  return member(cell);
}

function number(cell, [, sign, whole = '', decimals = '', only = '', exponent = '0'], text, factor) {
  const places = BigInt((decimals || only).length) - BigInt(exponent), digits = BigInt(`${whole}${decimals || only}` || '0') * factor;
  const scale = 10n ** (places < 0n ? -places : places), isWhole = places <= 0n || digits % scale === 0n;
  const size = places <= 0n ? digits * scale : digits / scale;
  if (size > LARGEST) reject(cell, 'is above 10^12. Use a larger unit.');
  if (!isWhole && factor !== 1n) reject(cell, `times ${factor} is not whole. Use a larger factor.`);
  return isWhole ? String(sign === '-' ? -size : size) : text;
}

const parameterName = cell => (PLAIN_NAME.test(cell.text) ? cell.text : reject(cell, 'is no name of a set or parameter.'));

/** Returns the statement of a parameter with two keys: rows by the first, columns by the second, or `isTurned` the other way round. */
export function gridStatement(rows, { name, isTurned = false, ...how }) {
  const columns = rows[0].slice(1).map(member);
  if (!columns.length) reject(rows[0][0], 'has no column to its right.');
  const lineOf = row => [member(row[0]), ...row.slice(1).map(it => value(it, how))].join(' ');
  const lines = rows.slice(1).map(row => lineOf(filled(row, rows[0].length)));
  return [`param ${name}${isTurned ? ' (tr)' : ''}: ${columns.join(' ')} :=`, ...lines, ';'].join('\n');
}

/** Returns the statement of a list: the first columns are keys, each other one a parameter; the keys can be the members of a set too. */
export function listStatement(rows, { keys = 1, set = '', ...how }) {
  const names = rows[0].slice(keys).map(parameterName);
  if (!names.length) reject(rows[0][0], `is in the first row, which needs at least ${keys + 1} titles: the keys, then the parameters.`);
  const lineOf = row => [...row.slice(0, keys).map(member), ...row.slice(keys).map(it => value(it, how))].join(' ');
  const lines = rows.slice(1).map(row => lineOf(filled(row, rows[0].length)));
  return [`param: ${set ? `${set}: ` : ''}${names.join(' ')} :=`, ...lines, ';'].join('\n');
}

/** Returns the statement of a set: a row is a member, or a tuple if a row has several cells. */
export function setStatement(rows, { name, hasHeading = false }) {
  const body = hasHeading ? rows.slice(1) : rows, width = body[0]?.length ?? 1;
  const lines = body.map(row => filled(row, width).map(member)).map(row => (width === 1 ? row[0] : `(${row.join(',')})`));
  return [`set ${name} :=`, ...new Set(lines), ';'].join('\n');
}

/** Returns whether a text can name a set or parameter. */
export const isName = text => PLAIN_NAME.test(text);
