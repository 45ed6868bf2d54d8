// Reads what netflow prints, by the grammar of docs/reference/command-line.md: plans, cuts, compiled models, certificates.

/** A member of a key in a printed name: a text in quotes, or a whole number. */
export const MEMBER = /'(?:[^']|'')*'|-?\d+/g;

/** Returns the members of a printed key: texts without their quotes, and numbers as texts of digits. */
export const members = text => (text.match(MEMBER) ?? []).map(unquoted);

const unquoted = text => (text[0] === "'" ? text.slice(1, -1).replaceAll("''", "'") : text);

/** Returns the lines of a printed text, without the line end of the last. */
export const linesOf = text => text.replace(/\n$/, '').split('\n');

/** Returns the name and the key of a printed arc or node, such as `Ship['PITT','NE']`. */
export function reference(text) {
  const bracket = text.indexOf('[');
  return bracket < 0 ? { name: text, key: [] } : { name: text.slice(0, bracket), key: members(text.slice(bracket)) };
}

/** Reads a plan: the objective, its value, and the declarations of arcs, each with the keys and flows of its arcs. */
export function readPlan(text) {
  const lines = linesOf(text), [objective, value] = valued(lines[0]), declarations = [];
  let rows = null;
  for (const line of lines.slice(1)) {
    if (line === ';') rows = null;
    else if (rows) {
      const blank = line.lastIndexOf(' ');
      rows.push({ key: members(line.slice(0, Math.max(0, blank))), flow: BigInt(line.slice(blank + 1)) });
    } else if (line.endsWith(' :=')) {
      rows = [];
      declarations.push({ name: line.slice(0, -3), isTable: true, arcs: rows });
    } else {
      const [name, flow] = valued(line);
      declarations.push({ name, isTable: false, arcs: [{ key: [], flow }] });
    }
  }
  return { objective, value, declarations };
}

function valued(line) {
  const [name, number] = line.split(' = ');
  return [name, BigInt(number)];
}

/** Reads a cut: its side, its supply, what its arcs allow, its nodes, and whether the outside is in it. */
export function readCut(text) {
  const lines = linesOf(text), [side, supply, limit] = lines[1].split(' ');
  const isOutside = lines.at(-1) === 'outside';
  return { side, supply: BigInt(supply), limit: BigInt(limit), isOutside, nodes: lines.slice(2).filter(it => it.startsWith('node ')).map(it => it.slice(5)) };
}

/** Reads the potentials of an optimal certificate: one for each node of the problem, the outside last. */
export function readPotentials(text) {
  const found = [];
  for (const line of linesOf(text.slice(text.indexOf('\nv ') + 1))) found.push(BigInt(line.slice(line.lastIndexOf(' ') + 1)));
  return found;
}

/** Reads an error line: its code, name, input, line and column (counted from 1, columns in bytes), and detail. */
export function readError(line) {
  const found = /^(E\d\d) (\w+) (model|data|problem|certificate) (\d+)(?::(\d+))?(?: (.*))?$/su.exec(line);
  if (!found) return null;
  const [, code, name, input, row, column, detail] = found;
  return { code, name, input, row: Number(row), column: column ? Number(column) : 1, detail: detail ?? '' };
}
