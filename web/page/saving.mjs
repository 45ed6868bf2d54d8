// The answer as files: comma-separated values, and a page of its own.
import { escaped } from './drawing.mjs';
import { drawingText } from './drawing_view.mjs';
import { arcTable } from './plan_view.mjs';
import { headline, titlesOf } from './reasons.mjs';
import { grouped } from './numbers.mjs';

const HEADINGS = ['flow', 'lower', 'upper', 'price', 'from', 'to'];
const PARTS_OF_REASONS = { asks: 'needed', helps: 'possible', idle: 'other arc' };

const csvCell = it => (/[",\r\n]/.test(it) ? `"${String(it).replaceAll('"', '""')}"` : String(it));

/** Returns the plan as one table with all declarations of arcs, in the columns of `netflow-sheet plan`. */
export function planCsv(plan, network) {
  const width = network.arcs.reduce((most, it) => Math.max(most, it.key.length), 0);
  const keys = Array.from({ length: width }, (_, here) => `key ${here + 1}`), rows = [['arc', ...keys, ...HEADINGS]];
  for (const arc of network.arcs) {
    const key = [...arc.key, ...Array(width - arc.key.length).fill('')];
    rows.push([arc.name, ...key, arc.flow, arc.lower, arc.upper, arc.price, network.end(arc.src), network.end(arc.dst)]);
  }
  rows.push([], [plan.objective, plan.value]);
  return rows.map(row => `${row.map(csvCell).join(',')}\n`).join('');
}

/** Returns the reasons as one table. */
export function cutCsv(network, reasons) {
  const rows = [['reason', 'part', 'amount', 'what']];
  reasons.forEach((reason, here) => {
    rows.push([here + 1, 'summary', '', headline(network, reason)]);
    for (const [part, name] of Object.entries(PARTS_OF_REASONS)) for (const it of reason[part]) rows.push([here + 1, name, it.amount, it.text]);
  });
  return rows.map(row => `${row.map(csvCell).join(',')}\n`).join('');
}

function htmlTable(columns, rows) {
  const head = columns.map(it => `<th scope="col">${escaped(it.title)}</th>`).join('');
  const cell = (it, here) => `<td class="${columns[here].kind}">${escaped(typeof it === 'bigint' ? grouped(it) : it)}</td>`;
  const lines = rows.map(row => `<tr class="${row.kind}">${row.cells.map(cell).join('')}</tr>`);
  return `<table><thead><tr>${head}</tr></thead><tbody>\n${lines.join('\n')}\n</tbody></table>`;
}

function planParts(plan, network, declarations) {
  const tables = declarations.map(({ name, arcs, titles }) => {
    const { columns, rows } = arcTable(arcs, titles, network);
    return `<h2>${escaped(name)}</h2>\n${htmlTable(columns, rows)}`;
  });
  return [`<p class="value">${escaped(plan.objective)} = ${grouped(plan.value)}</p>`, drawingText(network).text, ...tables];
}

function cutParts(network, reasons, marks) {
  const columns = [{ title: 'amount', kind: 'number' }, { title: 'what', kind: 'text' }];
  const tables = reasons.map(reason => {
    const titles = titlesOf(reason), rows = parts => parts.map(it => ({ kind: '', cells: [it.amount, it.text] }));
    const lists = ['asks', 'helps'].map(it => `<h3>${escaped(titles[it])}</h3>${htmlTable(columns, rows(reason[it]))}`);
    return `<h2>${escaped(headline(network, reason))}</h2>\n${lists.join('\n')}`;
  });
  return ['<p class="value none">No plan exists</p>', ...tables, drawingText(network, marks).text];
}

/** Returns the answer as a page that needs no other file and runs no script. */
export function answerPage({ plan, network, declarations, reasons, marks }, style) {
  const parts = plan ? planParts(plan, network, declarations) : cutParts(network, reasons, marks);
  return `<!DOCTYPE html>
<html lang="en"><head><meta charset="utf-8"><meta name="viewport" content="width=device-width, initial-scale=1">
<meta http-equiv="Content-Security-Policy" content="default-src 'none'; style-src 'unsafe-inline'">
<title>${plan ? escaped(`${plan.objective} = ${plan.value}`) : 'No plan exists'}</title><style>${style}<\/style></head>
<body class="answer"><main>
${parts.join('\n')}
</main><footer>Made by netflow.</footer></body></html>
`;
}
