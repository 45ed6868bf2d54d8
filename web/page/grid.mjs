// The grid of a declaration of arcs with two keys or more: rows by columns, as planners print shipments and rosters.
import { button, element } from './dom.mjs';
import { grouped, sum } from './numbers.mjs';
import { listAt } from './layout.mjs';

// From this many cells on a grid is made only when it is asked for.
const LARGE = 10_000;

/** Returns the rows, columns and cells of a grid: columns by the last part of the key, rows by the other parts. */
export function gridOf(arcs) {
  const columns = [...new Set(arcs.map(it => it.key.at(-1)))], rows = new Map();
  for (const arc of arcs) {
    const head = arc.key.slice(0, -1), name = JSON.stringify(head);
    if (!rows.has(name)) rows.set(name, { head, cells: new Map() });
    listAt(rows.get(name).cells, arc.key.at(-1)).push(arc);
  }
  return { columns, rows: [...rows.values()] };
}

/** Returns the grid of arcs as an element, or nothing if the keys have fewer than two parts. */
export function gridElement(name, titles, arcs) {
  if (!arcs.length || arcs[0].key.length < 2) return '';
  const grid = gridOf(arcs), cells = grid.columns.length * grid.rows.length;
  const title = `${name}: ${titles.slice(0, -1).join(' and ')} by ${titles.at(-1)}`;
  const holder = element('div', { class: 'view grid', tabindex: 0, role: 'region', 'aria-label': `Grid ${title}` });
  const made = element('details', {}, element('summary', {}, `Grid: ${titles.slice(0, -1).join(' and ')} by ${titles.at(-1)}`), holder);
  const fill = () => holder.replaceChildren(gridTable(grid, titles));
  if (cells <= LARGE) {
    made.open = true;
    fill();
  } else {
    const size = `${grouped(grid.rows.length)} rows and ${grouped(grid.columns.length)} columns`;
    holder.append(element('p', {}, `This grid has ${size}. `, button('Show it', fill)));
  }
  return made;
}

function gridTable({ columns, rows }, titles) {
  const head = kind => it => element('th', { scope: 'col', class: kind }, it);
  const heads = [...titles.slice(0, -1).map(head(null)), ...[...columns, 'total'].map(head('number'))];
  const flowOf = (row, column) => sum((row.cells.get(column) ?? []).map(it => it.flow));
  const lines = rows.map(row => {
    const total = sum(columns.map(it => flowOf(row, it)));
    const names = row.head.map((it, here) => element(here ? 'td' : 'th', here ? {} : { scope: 'row' }, it));
    return element('tr', {}, ...names, ...columns.map(it => cell(row.cells.get(it))), element('td', { class: 'number sum' }, grouped(total)));
  });
  const totals = columns.map(it => sum(rows.map(row => flowOf(row, it))));
  const last = element('tr', { class: 'sum' }, element('th', { scope: 'row', colspan: titles.length - 1 }, 'total'),
    ...[...totals, sum(totals)].map(it => element('td', { class: 'number' }, grouped(it))));
  return element('table', {}, element('thead', {}, element('tr', {}, ...heads)), element('tbody', {}, ...lines), element('tfoot', {}, last));
}

function cell(arcs) {
  if (!arcs) return element('td', { class: 'none' });
  const flow = sum(arcs.map(it => it.flow));
  return element('td', { class: `number${arcs.some(it => it.isTight?.()) ? ' full' : flow ? '' : ' zero'}` }, flow ? grouped(flow) : '\u00b7');
}
