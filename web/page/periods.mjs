// Layers by the periods of a network, if a part of its keys is one: a group of layers for each period. The twin of
// python/netflow/report/periods.py: a test compares the drawings.
import { layers, listAt } from './layout.mjs';
import { keyOf } from './names.mjs';

const WHOLE_MEMBER = /^-?\d+$/;
// A period has so many nodes in the mean, and at most this part of the arcs leads back in time.
const NODES_OF_PERIOD = 2, MOST_BACK = 0.1;

/** Returns the layer of each node and the bands of the periods, [title, first layer, last layer]; null if no key is a period. */
export function periodLayers(network, nodes, arcs) {
  const names = new Map(nodes.map(it => [it, keyOf(network.nodes[it].text)])), period = periodsOf(names);
  const values = [...new Set(period.values())].sort((one, two) => one - two), last = values.at(-1);
  if (values.length < 2 || last - values[0] !== values.length - 1 || period.size < NODES_OF_PERIOD * values.length) return null;
  const links = arcs.filter(it => names.has(it.src) && names.has(it.dst) && it.src !== it.dst);
  const steps = links.filter(it => period.has(it.src) && period.has(it.dst)).map(it => period.get(it.dst) - period.get(it.src));
  if (!steps.some(it => it > 0) || steps.filter(it => it < 0).length > MOST_BACK * steps.length) return null;
  const leading = new Set(links.filter(it => period.has(it.dst)).map(it => it.src));
  const group = new Map(nodes.map(it => [it, period.get(it) ?? (leading.has(it) ? values[0] - 1 : last + 1)]));
  return groupedLayers(nodes, arcs, group, names, values);
}

/** Returns the period of each node: the last part of the keys of its declaration that has only whole numbers, and more than one. */
function periodsOf(names) {
  const declared = new Map(), found = new Map();
  for (const [node, { head, key }] of names) listAt(declared, head).push({ node, key });
  for (const alike of declared.values()) {
    for (let place = Math.min(...alike.map(it => it.key.length)) - 1; place >= 0; place--) {
      const members = alike.map(it => it.key[place]);
      if (new Set(members).size < 2 || !members.every(it => WHOLE_MEMBER.test(it))) continue;
      alike.forEach(({ node }, here) => found.set(node, Number(members[here])));
      break;
    }
  }
  return found;
}

/** Returns layers by group, within each by the rank of the node's declaration there. */
function groupedLayers(nodes, arcs, group, names, values) {
  const rank = new Map(), inside = new Map(), found = new Map(), bands = [];
  const rankOf = node => rank.get(names.get(node).head);
  for (const node of nodes) listAt(inside, group.get(node)).push(node);
  for (const members of inside.values()) {
    const known = new Set(members);
    for (const [node, layer] of layers(members, arcs.filter(it => known.has(it.src) && known.has(it.dst)))) {
      const { head } = names.get(node);
      rank.set(head, Math.max(rank.get(head) ?? 0, layer));
    }
  }
  let first = 0;
  for (const number of [...inside.keys()].sort((one, two) => one - two)) {
    const ranks = [...new Set(inside.get(number).map(rankOf))].sort((one, two) => one - two);
    for (const node of inside.get(number)) found.set(node, first + ranks.indexOf(rankOf(node)));
    if (values[0] <= number && number <= values.at(-1)) bands.push([String(number), first, first + ranks.length - 1]);
    first += ranks.length;
  }
  return { layer: new Map(nodes.map(it => [it, found.get(it)])), bands };
}
