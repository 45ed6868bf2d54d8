// The network of a compiled model: its nodes and arcs with the model's own bounds and prices.
import { linesOf, reference } from './answer_text.mjs';

export const OUTSIDE = 'the outside';

/** An arc of the model. `src` and `dst` are node numbers from 0, null for the outside; `worth` is its reduced cost. */
export class Arc {
  constructor(text, src, dst, lower, upper, price) {
    Object.assign(this, { text, ...reference(text), src, dst, lower, upper, price, flow: 0n, worth: 0n });
  }

  isFull() {
    return this.flow === this.upper && this.lower < this.upper;
  }

  /** Whether the arc is full and more capacity would help. */
  isTight() {
    return this.isFull() && this.worth < 0n;
  }
}

const least = (one, two) => (one < two ? one : two);
const greatest = (one, two) => (one < two ? two : one);

/** A node of the model: its net inflow is from `low` to `high`, and its arcs allow it from `fewest` to `most`. */
export class Node {
  constructor(text) {
    Object.assign(this, { text, low: 0n, high: 0n, fewest: 0n, most: 0n, inflow: 0n });
  }

  hasLow() {
    return this.low > this.fewest;
  }

  hasHigh() {
    return this.high < this.most;
  }

  /** Returns what the node needs or gives, in a few words; an empty text for a node that passes on what it gets. */
  wish() {
    const { low, high } = this;
    if (low === high) return low > 0n ? `needs ${low}` : low < 0n ? `gives ${-low}` : '';
    const isLow = low !== least(high, this.fewest), isHigh = high !== greatest(low, this.most);
    if (isLow && isHigh) return between(low, high);
    if (isLow) return low > 0n ? `needs ${low} or more` : `gives up to ${-low}`;
    if (isHigh) return high >= 0n ? `takes up to ${high}` : `gives ${-high} or more`;
    return 'takes or gives what comes';
  }
}

function between(low, high) {
  if (low >= 0n) return low ? `needs ${low} to ${high}` : `takes up to ${high}`;
  if (high <= 0n) return high ? `gives ${-high} to ${-low}` : `gives up to ${-low}`;
  return `gives up to ${-low} or takes up to ${high}`;
}

/** Nodes and arcs; `problem` is the problem's text without comments, `sign` 1 to minimize and -1 to maximize. */
export class Network {
  constructor() {
    Object.assign(this, { nodes: [], arcs: [], problem: '', constant: 0n, sign: 1n });
  }

  end(number) {
    return number === null ? OUTSIDE : this.nodes[number].text;
  }

  /** Returns the arcs by the names of their declarations, in the model's order. */
  declared() {
    const found = new Map();
    for (const arc of this.arcs) {
      if (!found.has(arc.name)) found.set(arc.name, []);
      found.get(arc.name).push(arc);
    }
    return found;
  }

  /** Sets the flows of the arcs, and with them the net inflow of each node. */
  setFlows(flows) {
    this.arcs.forEach((arc, here) => {
      arc.flow = flows[here];
      if (arc.src !== null) this.nodes[arc.src].inflow -= arc.flow;
      if (arc.dst !== null) this.nodes[arc.dst].inflow += arc.flow;
    });
  }

  /** Sets the reduced costs of the arcs from the potentials of a certificate, the outside's last. */
  setPotentials(potentials) {
    const outside = potentials.at(-1);
    const worthOf = number => (number === null ? 0n : potentials[number] - outside);
    for (const arc of this.arcs) arc.worth = this.sign * arc.price + worthOf(arc.src) - worthOf(arc.dst);
  }
}

/** Reads a compiled model (without `--lean`). */
export function readCompiled(text) {
  const network = new Network(), start = text.startsWith('p ') ? 0 : text.indexOf('\np ') + 1, links = [];
  network.problem = text.slice(start);
  for (const line of linesOf(text.slice(0, start))) {
    const [, kind, first, second, ...rest] = line.split(' ');
    if (kind === 'arc') links.push({ offset: BigInt(second), text: rest.join(' ') });
    else if (kind === 'node') network.nodes.push(new Node([second, ...rest].join(' ')));
    else if (kind === 'constant') network.constant = BigInt(first);
    else if (kind === 'sign') network.sign = BigInt(first);
  }
  readProblem(network, links);
  return network;
}

/** Makes the arcs from their names and offsets, and sets the bounds of the nodes. */
function readProblem(network, links) {
  const { nodes, arcs, sign } = network, count = nodes.length, slack = [];
  const placed = number => (number > count ? null : number - 1);
  for (const line of linesOf(network.problem).slice(1)) {
    const words = line.split(' ');
    if (words[0] === 'n') {
      const node = nodes[Number(words[1]) - 1];
      if (node) node.low -= BigInt(words[2]);
      continue;
    }
    const link = links[arcs.length], src = placed(Number(words[1])), dst = placed(Number(words[2]));
    if (!link) slack.push({ node: nodes[src], room: BigInt(words[4]) });
    else arcs.push(new Arc(link.text, src, dst, BigInt(words[3]) + link.offset, BigInt(words[4]) + link.offset, sign * BigInt(words[5])));
  }
  arcs.forEach((arc, here) => allow(network, arc, links[here].offset));
  for (const node of nodes) node.high = node.low;
  for (const { node, room } of slack) node.high += room;
}

/** Adds what an arc allows to the bounds of its ends. */
function allow(network, arc, offset) {
  const src = network.nodes[arc.src], dst = network.nodes[arc.dst];
  if (src) {
    src.fewest -= arc.upper;
    src.most -= arc.lower;
    src.low -= offset;
  }
  if (dst) {
    dst.fewest += arc.lower;
    dst.most += arc.upper;
    dst.low += offset;
  }
}

/** Returns the side and the node numbers of a cut. A set with the outside is replaced by its complement, which shows the same. */
export function sidedCut(network, cut) {
  const places = new Map(network.nodes.map((node, number) => [node.text, number]));
  const inside = new Set(cut.nodes.map(it => places.get(it)));
  if (!cut.isOutside) return { side: cut.side, inside };
  const others = network.nodes.map((_, number) => number).filter(number => !inside.has(number));
  return { side: cut.side === 'over' ? 'under' : 'over', inside: new Set(others) };
}
