// Why there is no plan: the nodes that are short, with the arcs that limit them.
import { element, section } from './dom.mjs';
import { grouped } from './numbers.mjs';
import { headline, titlesOf } from './reasons.mjs';
import { Table } from './table.mjs';

const plural = (count, word) => (count === 1 ? `This ${word}` : `These ${count} ${word}s together`);

/** Returns the cut in words, by its own numbers, before the network is known. */
export function cutHead(cut) {
  const { side, supply, limit, nodes, isOutside } = cut;
  const box = element('div', {}, element('p', { class: 'value none' }, 'No plan exists'));
  if (isOutside) return box;
  const who = plural(nodes.length, 'node');
  const said = side === 'under' && supply <= 0n && limit <= 0n
    ? `${who} ${nodes.length === 1 ? 'needs' : 'need'} ${grouped(-supply)}, and no more than ${grouped(-limit)} can come.`
    : side === 'over' && supply >= 0n && limit >= 0n
      ? `${who} ${nodes.length === 1 ? 'has' : 'have'} ${grouped(supply)}, and no more than ${grouped(limit)} can leave.`
      : `What ${nodes.length === 1 ? 'this node needs or has' : 'these nodes need or have'} does not fit what their arcs can carry.`;
  box.append(element('p', {}, said));
  return box;
}

const partTable = (title, parts) => new Table(title, [{ title: 'amount', kind: 'number' }, { title: 'what', kind: 'text' }],
  parts.map(it => ({ cells: [it.amount, it.text], kind: '', isUsed: true }))).element;

/** Returns the sections of the reasons. */
export function reasonSections(network, reasons) {
  return reasons.map((reason, here) => {
    const titles = titlesOf(reason), parts = element('div', { class: 'pair' });
    parts.append(element('div', {}, element('h3', {}, titles.asks), partTable(titles.asks, reason.asks)));
    const helps = reason.helps.length ? [element('h3', {}, titles.helps), partTable(titles.helps, reason.helps)] : [element('p', {}, titles.none)];
    if (reason.idle.length) helps.push(element('h3', {}, titles.idle), element('ul', {}, ...reason.idle.map(it => element('li', {}, it.text))));
    parts.append(element('div', {}, ...helps));
    const number = reasons.length > 1 ? ` ${here + 1}` : '';
    return section(`Why${number}`, element('p', { class: 'reason' }, `${headline(network, reason)}.`), parts);
  });
}

/** Returns the nodes of the reasons that a drawing marks, and the arcs across their borders. */
export function marksOf(network, reasons) {
  const sets = reasons.map(it => new Set(it.nodes)), marked = new Set(reasons.flatMap(it => it.nodes));
  const across = new Set(network.arcs.filter(arc => sets.some(set => set.has(arc.src) !== set.has(arc.dst))));
  // If every node is in the set, a mark would say nothing.
  return { hasPlan: false, marked: marked.size === network.nodes.length ? new Set() : marked, across };
}
