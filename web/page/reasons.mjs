// Why there is no plan, in the names of the model: the sets of nodes that need more than can come, or have more than can leave.
import { sum } from './numbers.mjs';
import { Cuts, cutCertificate } from './cuts.mjs';

const needed = reason => sum(reason.asks.map(it => it.amount));
const given = reason => sum(reason.helps.map(it => it.amount));

/** Returns the titles of a reason's lists and the sentence if nothing helps. */
export function titlesOf(reason) {
  const isUnder = reason.side === 'under', amount = it => `${it} in all`;
  const [said, meant] = isUnder ? ['net_in', 'net_out'] : ['net_out', 'net_in'];
  return {
    asks: `${isUnder ? 'Needed' : 'There, at least'}: ${amount(needed(reason))}`,
    helps: `${isUnder ? 'Can come, at most' : 'Room, at most'}: ${amount(given(reason))}`,
    none: isUnder ? 'No arc leads in, and nothing else helps.' : 'No arc leads out, and nothing else helps.',
    idle: `These arcs lead ${isUnder ? 'out' : 'in'}${reason.helps.length ? '' : `. Is one reversed? Or is ${meant} meant instead of ${said}?`}`,
  };
}

/** Returns one sentence: which nodes need what, what can come, and what is short. */
export function headline(network, reason) {
  const count = reason.nodes.length, names = reason.nodes.map(it => network.nodes[it].text);
  const isNamed = count === 1 || (count <= 3 && network.nodes.length > 3);
  const who = isNamed ? names.join(', ') + (count > 1 ? ' together' : '')
    : `${count === network.nodes.length ? 'All' : 'These'} ${count} nodes together`;
  const needs = needed(reason), most = given(reason);
  return reason.side === 'under' ? `${who}: ${needs} needed, ${most} can come at most: ${needs - most} short`
    : `${who}: ${needs} there at least, room for ${most} at most: ${needs - most} too much`;
}

/**
 * Returns the reasons of a cut: the smallest sets in it that are short. Each is confirmed by netflow's checker, `check(certificate)`;
 * without a confirmed one the whole cut is the reason.
 */
export async function reasonsOf(network, { side, inside }, check) {
  const cuts = new Cuts(network, side), found = [];
  for (const part of cuts.parts(inside)) for (const set of cuts.parts(cuts.thinned(part))) {
    if (cuts.short(set) > 0n && await check(cutCertificate(side, set))) found.push(set);
  }
  const sets = found.length ? found : [inside];
  return sets.map(it => cuts.reason(it)).sort((one, two) => (needed(two) - given(two) > needed(one) - given(one) ? 1 : -1));
}
