// The sizes and positions of a drawing. The twin of the first half of python/netflow/report/drawing.py: a test compares the drawings.
import { grouped } from './numbers.mjs';
import { Bend, apart, hasCycle, layers, listAt, mean } from './layout.mjs';
import { spoken } from './names.mjs';
import { periodLayers } from './periods.mjs';

const LETTER = 7.4, LABELLED = 60, SWEEPS = 24, SETTLINGS = 16;
// Pixels: between the ends of arcs with a number, of other arcs, and the length of an arc from or to the outside.
const PORT = 17, BARE_PORT = 8;
export const STUB = 34;
// The most pixels that a node of a large picture gets for the ends of its arcs, and the most letters of a name.
const MOST_ROOM = 170, MOST_LETTERS = 34;

/** Returns the width of a text in letters; those of East Asia take nearly two. */
const columns = text => [...text].reduce((total, it) => total + (it.codePointAt(0) > 0x2e80 ? 1.8 : 1), 0);
const longest = texts => texts.reduce((best, it) => (it.length > best.length ? it : best));

/**
 * A drawing of some arcs of a network. `marked` are node numbers, `across` arcs across that set; with `alone` all nodes are drawn.
 * Positions are `u` along the layers and `v` across them. `part` is for a part of a drawing: its nodes, the arcs between them, and
 * whether arcs have numbers.
 */
export class Picture {
  constructor(network, arcs, { marked = new Set(), across = new Set(), alone = false, isDown = false, part = null } = {}) {
    Object.assign(this, { network, arcs, marked, across, isDown, parts: [] });
    const ends = new Set(arcs.flatMap(arc => [arc.src, arc.dst]).filter(it => it !== null));
    if (marked.size <= 80) for (const it of marked) ends.add(it);
    this.nodes = part?.nodes ?? (alone ? network.nodes.map((_, number) => number) : [...ends].sort((one, two) => one - two));
    this.isSmall = part?.isSmall ?? arcs.length <= LABELLED;
    this.links = arcs.filter(it => it.src !== null && it.dst !== null && it.src !== it.dst);
    this.stubs = new Map();
    for (const arc of arcs) if ((arc.src === null) !== (arc.dst === null)) listAt(this.stubs, stubKey(arc.src, arc.dst)).push(arc);
    const known = part?.known ?? network.arcs, byPeriod = periodLayers(network, this.nodes, known);
    this.bands = byPeriod?.bands ?? [];
    this.layer = byPeriod?.layer ?? this.ranked(known);
    this.measure();
    this.place();
  }

  /** Returns layers by rank. If arcs lead from anywhere to anywhere, only those that are drawn have an order. */
  ranked(known) {
    const found = layers(this.nodes, known), level = this.links.filter(it => found.get(it.src) === found.get(it.dst)).length;
    return 3 * level > this.links.length && !hasCycle(this.nodes, this.links) ? layers(this.nodes, this.links) : found;
  }

  textWidth(text) {
    return LETTER * columns(text);
  }

  /** Returns the text on an arc: what it carries, or across a cut what it can carry. */
  number(arc) {
    return arc.flow ? grouped(arc.flow) : this.across.has(arc) ? `${arc.lower}..${arc.upper}` : '';
  }

  /** Returns the lines of a node: its name, and in a small picture what it needs or gives. */
  label(number) {
    const node = this.network.nodes[number], found = [spoken(node.text), this.isSmall ? node.wish() : ''].filter(Boolean);
    const lines = found.length ? found : [node.text.split('[')[0]];
    return lines.map(it => (columns(it) <= MOST_LETTERS ? it : `${[...it].slice(0, MOST_LETTERS - 1).join('')}\u2026`));
  }

  /** Sets the width and height of each node: room for its name, and for the ends of its arcs on each side. */
  measure() {
    this.wide = new Map();
    this.tall = new Map();
    for (const it of this.nodes) {
      const lines = this.label(it);
      this.wide.set(it, 22 + this.textWidth(lines.reduce((best, line) => (columns(line) > columns(best) ? line : best))));
      this.tall.set(it, !this.isSmall ? 19 : lines.length > 1 ? 40 : 24);
    }
    this.measureSides();
    for (const alike of this.isSmall ? this.stubs.values() : []) {
      const number = alike[0].src ?? alike[0].dst, other = this.isDown ? this.tall : this.wide;
      other.set(number, Math.max(other.get(number), (alike.length - 1) * this.stubStep(alike) + 16));
    }
  }

  measureSides() {
    this.sides = new Map();
    for (const arc of this.links) {
      const src = this.layer.get(arc.src), dst = this.layer.get(arc.dst);
      if (src === dst) continue;
      listAt(this.sides, `${arc.src},${dst > src}`).push({ arc, isTail: true });
      listAt(this.sides, `${arc.dst},${dst <= src}`).push({ arc, isTail: false });
    }
    const sizes = this.isDown ? this.wide : this.tall;
    for (const [key, ends] of this.sides) {
      const number = Number(key.split(',')[0]);
      const room = 10 + ends.reduce((total, { arc, isTail }) => total + this.pitch(arc, isTail), 0);
      sizes.set(number, Math.max(sizes.get(number), this.isSmall ? room : Math.min(room, MOST_ROOM)));
    }
  }

  /** Returns the room that the end of an arc takes at its node; numbers are at heads. */
  pitch(arc, isTail) {
    const text = this.isSmall && !isTail ? this.number(arc) : '';
    return !text ? BARE_PORT : this.isDown ? this.textWidth(text) + 8 : PORT;
  }

  stubStep(alike) {
    return this.isDown ? PORT : STUB + this.textWidth(longest(alike.map(it => this.number(it))));
  }

  /** Returns how much of `v` a node or a bend takes, with the gap to the next. */
  extent(it) {
    if (it instanceof Bend) return 14;
    return (this.isDown ? this.wide : this.tall).get(it) + (this.isSmall ? 18 : 7) + this.stubRoom(it);
  }

  stubRoom(number) {
    const alike = [stubKey(null, number), stubKey(number, null)].flatMap(key => this.stubs.get(key) ?? []);
    if (!alike.length || !this.isSmall) return 0;
    return 2 * (STUB + (this.isDown ? this.textWidth(longest(alike.map(it => this.number(it)))) : 0));
  }

  place() {
    const { near, rows } = this.paths(), along = this.isDown ? this.tall : this.wide;
    this.order(rows, near);
    const u = new Map(), v = this.settled(rows, near);
    let left = 62;
    rows.forEach((row, here) => {
      const size = Math.max(...row.map(it => along.get(it) ?? 0));
      for (const it of row) u.set(it, left + size / 2);
      left += size + this.gap(here, rows);
    });
    const all = [...v.keys()], first = all.length ? Math.min(...all.map(it => v.get(it) - this.extent(it) / 2)) - 14 : -14;
    this.u = u;
    this.v = new Map(all.map(it => [it, v.get(it) - first]));
    const last = Math.max(0, ...[...u].map(([it, at]) => at + (along.get(it) ?? 0) / 2)) + 62;
    const far = Math.max(0, ...all.map(it => this.v.get(it) + this.extent(it) / 2)) + 14;
    this.sheet = this.isDown ? [far, last] : [last, far];
    this.ports = this.spreadPorts();
  }

  /** Returns the positions across the layers: each node is near the mean of its neighbours, and clear of the next. */
  settled(rows, near) {
    const v = new Map(rows.flatMap(row => row.map((it, here) => [it, here * 30])));
    for (let turn = 0; turn < SETTLINGS; turn++) {
      for (const row of turn % 2 ? rows : [...rows].reverse()) {
        const wanted = row.map(it => mean((near.get(it) ?? []).map(there => v.get(there)), v.get(it)));
        apart(wanted, row.map(it => this.extent(it))).forEach((at, here) => v.set(row[here], at));
      }
    }
    return v;
  }

  /** Returns the room between two layers: more for more arcs and for numbers. */
  gap(here, rows) {
    if (!this.isSmall) return this.isDown ? 70 : Math.min(90 + 14 * Math.sqrt(rows[here].length), 280);
    const crossing = this.links.filter(it => {
      const src = this.layer.get(it.src), dst = this.layer.get(it.dst);
      return Math.min(src, dst) <= here && here < Math.max(src, dst);
    }).length;
    if (this.isDown) return Math.min(64 + 4 * crossing, 140);
    const text = Math.max(0, ...this.links.map(it => this.textWidth(this.number(it))));
    return Math.min(96 + text + 9 * crossing, 420);
  }

  /** Returns the neighbours of each node and bend, and the layers; a long arc has a bend in each layer between its ends. */
  paths() {
    const near = new Map(), rows = new Map(), layer = new Map(this.layer), hasBends = this.links.length <= 400;
    this.bends = new Map();
    for (const arc of this.links) {
      const first = layer.get(arc.src), last = layer.get(arc.dst), step = last > first ? 1 : -1, bends = [];
      for (let at = first + step; hasBends && first !== last && at !== last; at += step) {
        bends.push(new Bend());
        layer.set(bends.at(-1), at);
      }
      this.bends.set(arc, bends);
      const path = [arc.src, ...bends, arc.dst];
      for (let at = 1; at < path.length; at++) {
        listAt(near, path[at - 1]).push(path[at]);
        listAt(near, path[at]).push(path[at - 1]);
      }
    }
    for (const [it, number] of layer) listAt(rows, number).push(it);
    return { near, rows: [...rows.keys()].sort((one, two) => one - two).map(it => rows.get(it)) };
  }

  /** Orders each layer by the means of the neighbours, which keeps arcs short. */
  order(rows, near) {
    const at = new Map(rows.flatMap(row => row.map((it, here) => [it, (here + 0.5) / row.length])));
    for (let turn = 0; turn < SWEEPS; turn++) {
      for (const row of turn % 2 ? rows : [...rows].reverse()) {
        const wanted = new Map(row.map(it => [it, mean((near.get(it) ?? []).map(there => at.get(there)), at.get(it))]));
        row.sort((one, two) => wanted.get(one) - wanted.get(two));
        row.forEach((it, here) => at.set(it, (here + 0.5) / row.length));
      }
    }
  }

  /** Returns for each end of an arc its distance from the middle of its node's side, in the order of the other ends. */
  spreadPorts() {
    const found = { tail: new Map(), head: new Map() };
    const other = ({ arc, isTail }) => {
      const bends = this.bends.get(arc);
      return this.v.get(bends.length ? (isTail ? bends[0] : bends.at(-1)) : isTail ? arc.dst : arc.src);
    };
    for (const [key, ends] of this.sides) {
      ends.sort((one, two) => other(one) - other(two));
      const room = (this.isDown ? this.wide : this.tall).get(Number(key.split(',')[0])) - 10;
      const pitches = ends.map(({ arc, isTail }) => this.pitch(arc, isTail)), total = pitches.reduce((all, it) => all + it, 0);
      const scale = Math.min(1, (this.isSmall ? room : Math.max(room, 1)) / total);
      let at = -total * scale / 2;
      ends.forEach(({ arc, isTail }, here) => {
        found[isTail ? 'tail' : 'head'].set(arc, at + pitches[here] * scale / 2);
        at += pitches[here] * scale;
      });
    }
    return found;
  }
}

export const stubKey = (src, dst) => `${src},${dst}`;
