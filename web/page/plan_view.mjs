// The plan: its value, and a table and a grid for each declaration of arcs.
import { element, section } from './dom.mjs';
import { counted, grouped } from './numbers.mjs';
import { headings } from './headings.mjs';
import { gridElement } from './grid.mjs';
import { Table } from './table.mjs';

/** Returns the columns and rows of the arcs of a declaration. Before the network is known, they have only keys and flows. */
export function arcTable(arcs, titles, network) {
  const has = pick => network && arcs.some(pick), hasLeast = has(it => it.lower), hasPrice = has(it => it.price);
  const text = title => ({ title, kind: 'text' }), number = title => ({ title, kind: 'number' });
  const columns = [...titles.map(text), { title: 'flow', kind: 'number flow' }, ...(hasLeast ? [number('least')] : []), ...(network ? [number('most')] : []),
    ...(hasPrice ? [number('price'), number('flow × price')] : []), ...(network ? [text('from'), text('to')] : [])];
  const cellsOf = it => [...it.key, it.flow, ...(hasLeast ? [it.lower] : []), ...(network ? [it.upper] : []),
    ...(hasPrice ? [it.price, it.flow * it.price] : []), ...(network ? [network.end(it.src), network.end(it.dst)] : [])];
  const rows = arcs.map(it => ({ cells: cellsOf(it), kind: it.isTight?.() ? 'full' : it.flow ? '' : 'zero', isUsed: it.flow !== 0n }));
  return { columns, rows };
}

/** Returns the names, arcs and titles of the declarations of a plan. */
export function declarationsOf(plan, network, words) {
  const declared = network?.declared();
  return plan.declarations.map(({ name, arcs, isTable }) => {
    const shown = declared?.get(name) ?? arcs;
    return { name, isTable, arcs: shown, titles: headings(words, name, shown[0]?.key.length ?? 0) };
  });
}

/** Returns the heading of a plan: the value, and what is proved of it. */
export function planHead(plan, network) {
  const best = !network ? '' : network.sign > 0n ? 'No plan costs less: this is proved.' : 'No plan is worth more: this is proved.';
  const inUse = network?.arcs.filter(it => it.flow).length;
  const used = network ? `${counted(network.nodes.length, 'node')}, ${counted(network.arcs.length, 'arc')}, ${grouped(inUse)} in use.` : '';
  return element('div', {}, element('p', { class: 'value' }, `${plan.objective} = ${grouped(plan.value)}`), element('p', {}, `${best} ${used}`));
}

function summary(arcs) {
  const used = arcs.filter(it => it.flow).length, full = arcs.filter(it => it.isTight?.()).length;
  return `${counted(arcs.length, 'arc')}, ${grouped(used)} in use${full ? `, ${grouped(full)} full so that more would help` : ''}.`;
}

/** Returns the sections of the declarations. */
export function declarationSections(declarations, network) {
  return declarations.map(({ name, arcs, titles, isTable }) => {
    if (!arcs.length) return section(name, element('p', {}, 'It has no arcs.'));
    const { columns, rows } = arcTable(arcs, titles, network), isSome = rows.some(it => !it.isUsed) && rows.length > 1;
    const table = new Table(name, columns, rows, isSome ? 'only arcs in use' : '');
    return section(name, element('p', {}, summary(arcs)), table.element, isTable ? gridElement(name, titles, arcs) : '');
  });
}

/** Returns the section of the nodes with what they need or give, and what comes and leaves. */
export function nodeSection(network) {
  const came = network.nodes.map(() => 0n), went = network.nodes.map(() => 0n);
  for (const { src, dst, flow } of network.arcs) {
    const [from, to] = flow < 0n ? [dst, src] : [src, dst], amount = flow < 0n ? -flow : flow;
    if (to !== null) came[to] += amount;
    if (from !== null) went[from] += amount;
  }
  const titles = { node: 'text', 'needs or gives': 'text', inflow: 'number', outflow: 'number' };
  const columns = Object.entries(titles).map(([title, kind]) => ({ title, kind }));
  const rows = network.nodes.map((node, here) => ({ cells: [node.text, node.wish(), came[here], went[here]], kind: '', isUsed: true }));
  return section('Nodes', new Table('Nodes', columns, rows).element);
}
