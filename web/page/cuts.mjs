// Sets of nodes that are short: they need more than can come, or have more than can leave. The twin of `Cuts` in
// python/netflow/analysis/reasons.py.
import { compared, sum } from './numbers.mjs';

/** A part of a reason: an amount, and what it is of; `arc` is the arc if it is one. */
function part(amount, text, arc = null) {
  return { amount, text, arc };
}

/** The sets of nodes of a network that are short on one side: `under` if they need more than can come. */
export class Cuts {
  constructor(network, side) {
    this.network = network;
    this.side = side;
    this.isUnder = side === 'under';
    this.near = network.nodes.map(() => []);
    for (const arc of network.arcs) for (const number of new Set([arc.src, arc.dst])) if (number !== null) this.near[number].push(arc);
  }

  /** What has to come to the node, or to leave it, by its own condition. */
  needs(number) {
    const node = this.network.nodes[number];
    return this.isUnder ? node.low : -node.high;
  }

  binds(number) {
    const node = this.network.nodes[number];
    return this.isUnder ? node.hasLow() : node.hasHigh();
  }

  /** The most that the arc brings to a set that it crosses, or takes away from it. */
  carried(arc, isInward) {
    return isInward === this.isUnder ? arc.upper : -arc.lower;
  }

  crossing(nodes) {
    return [...nodes].flatMap(it => this.near[it].filter(arc => nodes.has(arc.src) !== nodes.has(arc.dst)));
  }

  short(nodes) {
    return sum([...nodes].map(it => this.needs(it))) - sum(this.crossing(nodes).map(arc => this.carried(arc, nodes.has(arc.dst))));
  }

  /** How much less short the set is without the node. */
  gainOf(number, nodes) {
    let gain = this.needs(number);
    for (const arc of this.near[number]) {
      const src = nodes.has(arc.src), dst = nodes.has(arc.dst);
      if (src && dst && arc.src !== arc.dst) gain += this.carried(arc, arc.src === number);
      else if (src !== dst) gain -= this.carried(arc, dst);
    }
    return gain;
  }

  /** Returns the set without nodes that add nothing to the shortage. */
  thinned(all) {
    const nodes = new Set([...all].filter(it => this.binds(it)));
    for (let again = true; again;) {
      again = false;
      for (const it of [...nodes].sort((one, two) => compared(this.needs(one), this.needs(two)) || one - two)) {
        if (this.gainOf(it, nodes) <= 0n) again = nodes.delete(it);
      }
    }
    return nodes;
  }

  /** Returns the connected parts of the set. */
  parts(nodes) {
    const left = new Set(nodes), found = [];
    while (left.size) {
      const [first] = left, line = [first];
      left.delete(first);
      for (const it of line) for (const arc of this.near[it]) {
        const other = arc.dst === it ? arc.src : arc.dst;
        if (left.delete(other)) line.push(other);
      }
      found.push(new Set(line));
    }
    return found;
  }

  /** Returns the set's reason: what has to be met, what can meet it at most, and the arcs across it that do neither. */
  reason(nodes) {
    const { network } = this, asks = [], helps = [], idle = [], sorted = [...nodes].sort((one, two) => one - two);
    for (const it of sorted) {
      const amount = this.needs(it);
      if (amount > 0n) asks.push(part(amount, network.nodes[it].text));
      else if (amount < 0n) helps.push(part(-amount, network.nodes[it].text));
    }
    for (const arc of this.crossing(new Set(sorted))) {
      const isInward = nodes.has(arc.dst), amount = this.carried(arc, isInward);
      const end = isInward ? `from ${network.end(arc.src)}` : `to ${network.end(arc.dst)}`;
      const text = `${arc.text} ${end}, which carries ${arc.lower} to ${arc.upper}`;
      if (amount < 0n) asks.push(part(-amount, `by ${text}`, arc));
      else if (amount > 0n || isInward === this.isUnder) helps.push(part(amount, `by ${text}`, arc));
      else idle.push(part(0n, text, arc));
    }
    for (const list of [asks, helps]) list.sort((one, two) => compared(two.amount, one.amount));
    return { side: this.side, nodes: sorted, asks, helps, idle };
  }
}

/** Returns the certificate text of a set of nodes on a side. */
export const cutCertificate = (side, nodes) => `x ${side}\n${[...nodes].sort((one, two) => one - two).map(it => `m ${it + 1}\n`).join('')}`;
