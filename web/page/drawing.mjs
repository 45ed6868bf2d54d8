// Draws a network as SVG: nodes in layers, arcs as curves, the flow of an arc next to its arrow head. The twin of the second half of
// python/netflow/report/drawing.py: a test compares the drawings.
import { absolute } from './numbers.mjs';
import { components } from './layout.mjs';
import { spoken } from './names.mjs';
import { Picture, STUB, stubKey } from './picture.mjs';

// From this width on a drawing is tried from top to bottom. From this height on, with so few layers, its components are apart.
const WIDE = 1400, HIGH = 700, FLAT = 4, MARGIN = 12, BAND = 36;
const KINDS = ['idle', 'used', 'full', 'across'];

const ENTITIES = { '&': '&amp;', '<': '&lt;', '>': '&gt;', '"': '&quot;', "'": '&#x27;' };

/** Returns a text for HTML and SVG. */
export const escaped = text => String(text).replace(/[&<>"']/g, letter => ENTITIES[letter]);

/** Returns a number without digits after the point; halves are rounded to the even neighbour. */
function rounded(number) {
  const whole = Math.floor(number), isHalf = number - whole === 0.5;
  const found = isHalf ? whole + (whole % 2 ? 1 : 0) : Math.round(number);
  return found === 0 && (number < 0 || Object.is(number, -0)) ? '-0' : String(found);
}

const spot = ([x, y]) => `${rounded(x)},${rounded(y)}`;

/** Returns the point of a Bezier curve at a part of it from 0 to 1. */
function along([[x0, y0], [x1, y1], [x2, y2], [x3, y3]], part) {
  const back = 1 - part, weights = [back ** 3, 3 * back ** 2 * part, 3 * back * part ** 2, part ** 3];
  const total = values => weights.reduce((all, weight, here) => all + weight * values[here], 0);
  return [total([x0, x1, x2, x3]), total([y0, y1, y2, y3])];
}

const overlaps = (one, two) => one[0] < two[2] && two[0] < one[2] && one[1] < two[3] && two[1] < one[3];

/** Returns the SVG text of the picture that fits a page best; several pictures if the network falls apart. */
export function draw(network, arcs, options = {}) {
  let found = new Drawing(network, arcs, options);
  if (found.sheet[0] > WIDE) {
    const other = new Drawing(network, arcs, { ...options, isDown: true });
    if (other.sheet[0] <= Math.max(WIDE, found.sheet[0] / 2)) return other.svg();
  }
  if (found.sheet[1] > HIGH && new Set(found.layer.values()).size <= FLAT) found.parts = split(found);
  return found.svg();
}

/** Returns a drawing of each component of a drawing; none if it is connected. */
function split(whole) {
  const groups = components(whole.nodes, whole.arcs);
  if (groups.length < 2) return [];
  const home = new Map(groups.flatMap((nodes, number) => nodes.map(it => [it, number])));
  const shown = groups.map(() => []), known = groups.map(() => []);
  for (const [arcs, parts] of [[whole.arcs, shown], [whole.network.arcs, known]]) {
    for (const arc of arcs) {
      const ends = new Set([arc.src, arc.dst].filter(it => it !== null).map(it => home.get(it)));
      const [end] = ends;
      if (ends.size === 1 && end !== undefined) parts[end].push(arc);
    }
  }
  const isSmall = Math.max(...shown.map(it => it.length)) <= 60, { marked, across } = whole;
  return groups.map((nodes, here) => new Drawing(whole.network, shown[here], { marked, across, part: { nodes, known: known[here], isSmall } }));
}

class Drawing extends Picture {
  xy(u, v) {
    return this.isDown ? [v, u] : [u, v];
  }

  /** Returns half the size of a node along the layers. */
  half(number) {
    return (this.isDown ? this.tall : this.wide).get(number) / 2;
  }

  /** Returns the arc as Bezier curves of four points each. */
  curves(arc) {
    const { u, v } = this;
    if (arc.src === null || arc.dst === null) return arc.src === arc.dst ? [] : this.stub(arc);
    if (arc.src === arc.dst) {
      const [x, middle] = this.xy(u.get(arc.src), v.get(arc.src)), y = middle - this.tall.get(arc.src) / 2;
      return [[[x - 12, y], [x - 26, y - 30], [x + 26, y - 30], [x + 12, y - 3]]];
    }
    if (this.layer.get(arc.src) === this.layer.get(arc.dst)) return this.arch(arc);
    const side = this.layer.get(arc.src) < this.layer.get(arc.dst) ? 1 : -1;
    const first = [u.get(arc.src) + side * this.half(arc.src), v.get(arc.src) + this.ports.tail.get(arc)];
    const last = [u.get(arc.dst) - side * (this.half(arc.dst) + 4), v.get(arc.dst) + this.ports.head.get(arc)];
    const path = [first, ...this.bends.get(arc).map(it => [u.get(it), v.get(it)]), last];
    return path.slice(1).map(([s, w], here) => {
      const [r, x] = path[here];
      return [[r, x], [(r + s) / 2, x], [(r + s) / 2, w], [s, w]].map(it => this.xy(...it));
    });
  }

  /** Returns an arc within a layer, which bows out to the side: after the layer one way, before it the other. */
  arch(arc) {
    const { u, v } = this, here = v.get(arc.src), there = v.get(arc.dst), side = here < there ? 1 : -1;
    const high = Math.max(this.half(arc.src), this.half(arc.dst)) + 16 + Math.abs(here - there) * 0.22, bow = u.get(arc.src) + side * high;
    const first = [u.get(arc.src) + side * this.half(arc.src), here], last = [u.get(arc.dst) + side * (this.half(arc.dst) + 4), there];
    return [[first, [bow, here], [bow, there], last].map(it => this.xy(...it))];
  }

  /** Returns an arc from or to the outside: across the layers in a small picture, along them in a large one. */
  stub(arc) {
    const isIn = arc.src === null, number = isIn ? arc.dst : arc.src, side = isIn ? -1 : 1;
    const alike = this.stubs.get(stubKey(arc.src, arc.dst)), here = alike.indexOf(arc) - (alike.length - 1) / 2;
    let u = this.u.get(number), v = this.v.get(number), ends;
    if (this.isSmall) {
      u += here * this.stubStep(alike);
      v += side * (this.isDown ? this.wide : this.tall).get(number) / 2;
      ends = [[u, v + side * (STUB - 2)], [u, v + side * 3]];
    } else {
      u += side * this.half(number);
      ends = [[u + side * 26, v], [u + side * 3, v]];
    }
    const [first, last] = (isIn ? ends : ends.reverse()).map(it => this.xy(...it));
    return [[first, first, last, last]];
  }

  /** Returns the middle of the arc's number: next to its head, next to a stub, or on the middle of an arch. */
  textPlace(arc, text, curves) {
    const wide = this.textWidth(text) + 6, [x, y] = curves[0][0], [u, w] = curves.at(-1)[3];
    if (arc.src === null || arc.dst === null) {
      if (!this.isDown) return [(x + u) / 2 + 4 + wide / 2, (y + w) / 2];
      return [arc.src === null ? Math.min(x, u) - wide / 2 - 2 : Math.max(x, u) + wide / 2 + 2, y];
    }
    const src = this.layer.get(arc.src), dst = this.layer.get(arc.dst);
    if (arc.src === arc.dst || src === dst) return this.freePlace(wide, curves);
    const back = src < dst ? -1 : 1, place = this.isDown ? [u, w + back * 20] : [u + back * (wide / 2 + 11), w];
    this.boxes.push([place[0] - wide / 2, place[1] - 8, place[0] + wide / 2, place[1] + 8]);
    return place;
  }

  /** Returns a place on the arc that is clear of nodes and of earlier numbers, if there is one. */
  freePlace(wide, curves) {
    let best = null;
    for (const part of [0.5, 0.4, 0.6, 0.3, 0.7, 0.22, 0.78, 0.15, 0.85]) {
      const [x, y] = along(curves[0], part), box = [x - wide / 2, y - 8, x + wide / 2, y + 8];
      const hits = this.boxes.filter(it => overlaps(box, it)).length;
      if (best === null || hits < best.hits) best = { hits, place: [x, y], box };
      if (!hits) break;
    }
    this.boxes.push(best.box);
    return best.place;
  }

  kind(arc) {
    return this.across.has(arc) ? 'across' : arc.flow && arc.isTight() ? 'full' : arc.flow ? 'used' : 'idle';
  }

  /** Returns the arc, and its number, which is drawn after all arcs. */
  arcSvg(arc, most) {
    const curves = this.curves(arc), flow = Number(absolute(arc.flow)), kind = this.kind(arc);
    if (!curves.length) return ['', ''];
    for (const [x, y] of curves.flat()) this.reach.push([x - 4, y - 4, x + 4, y + 4]);
    const path = `M${spot(curves[0][0])}${curves.map(([, b, c, d]) => `C${spot(b)} ${spot(c)} ${spot(d)}`).join('')}`;
    const width = flow ? 1.2 + (most > 1 ? 4.8 : 0.8) * Math.sqrt(flow / most) : kind === 'across' ? 2.5 : 1.2;
    const ends = [...new Set([arc.src, arc.dst])].filter(it => it !== null).sort((one, two) => one - two).map(it => `n${it}`).join(' ');
    const between = `${spoken(this.network.end(arc.src))} to ${spoken(this.network.end(arc.dst))}`;
    const said = `${spoken(arc.text)}: ${between}, ${arc.flow} of ${arc.lower} to ${arc.upper}, price ${arc.price}`;
    const line = `<path d="${path}" stroke-width="${width.toFixed(1)}" marker-end="url(#${kind})"/>`;
    const drawn = `<g class="arc ${kind} ${ends}"><title>${escaped(said)}</title>${line}</g>`;
    const text = this.number(arc);
    if (!text) return [drawn, ''];
    const half = this.textWidth(text) / 2;
    const [x, y] = this.isSmall ? this.textPlace(arc, text, curves) : along(curves[Math.floor(curves.length / 2)], 0.5);
    this.reach.push([x - half, y - 8, x + half, y + 8]);
    // The background keeps a line from being read as a part of a digit or a decimal point.
    const back = `<rect x="${rounded(x - half)}" y="${rounded(y - 8)}" width="${rounded(2 * half)}" height="16" rx="3"/>`;
    return [drawn, `<g class="arc number ${ends}">${back}<text x="${rounded(x)}" y="${rounded(y + 4)}">${text}</text></g>`];
  }

  nodeSvg(number) {
    const [x, y] = this.xy(this.u.get(number), this.v.get(number)), wide = this.wide.get(number), high = this.tall.get(number);
    const lines = this.label(number), node = this.network.nodes[number], wish = node.wish().split(' ')[0];
    const kind = this.marked.has(number) ? 'marked' : wish === 'gives' || wish === 'needs' ? wish : 'plain', first = y + 4 - 7.5 * (lines.length - 1);
    const texts = lines.map((it, here) => `<text class="line${here}" x="${rounded(x)}" y="${rounded(first + 15 * here)}">${escaped(it)}</text>`).join('');
    const said = `${spoken(node.text)}: ${node.wish() || 'passes on what it gets'}`;
    const rect = `<rect x="${rounded(x - wide / 2)}" y="${rounded(y - high / 2)}" width="${rounded(wide)}" height="${rounded(high)}" rx="5"/>`;
    return `<g class="node ${kind}" id="n${number}" tabindex="0"><title>${escaped(said)}</title>${rect}${texts}</g>`;
  }

  box(number) {
    const [x, y] = this.xy(this.u.get(number), this.v.get(number)), wide = this.wide.get(number) / 2, high = this.tall.get(number) / 2;
    return [x - wide, y - high, x + wide, y + high];
  }

  /** Returns the text of the drawing, or of its parts. */
  svg() {
    const most = Number(this.arcs.reduce((best, it) => (absolute(it.flow) > best ? absolute(it.flow) : best), 1n));
    const heads = KINDS.map(it => `<marker id="${it}" class="head ${it}" viewBox="0 0 8 8" refX="6" refY="4" markerUnits="userSpaceOnUse" markerWidth="9" `
      + 'markerHeight="9" orient="auto"><path d="M0,0L8,4L0,8z"/></marker>').join('');
    const defs = `<defs>${heads}</defs>`;
    if (!this.parts.length) return this.sheetSvg(most, defs);
    return this.parts.map((it, here) => it.sheetSvg(most, here ? '' : defs)).join('\n');
  }

  /** Returns the titles of the periods, before or above their layers, with a line between two of them. */
  bandsSvg() {
    if (!this.bands.length) return [];
    const side = (place, pick) => this.reach.reduce((best, it) => pick(best, it[place]), this.reach[0][place]), made = [];
    const [start, far] = this.isDown ? [side(0, Math.min), side(2, Math.max)] : [side(1, Math.min), side(3, Math.max)];
    let edge = 0;
    this.bands.forEach(([title, first, last], here) => {
      const inside = this.nodes.filter(it => first <= this.layer.get(it) && this.layer.get(it) <= last);
      const low = Math.min(...inside.map(it => this.u.get(it) - this.half(it))), high = Math.max(...inside.map(it => this.u.get(it) + this.half(it)));
      if (here) made.push(`<path class="band" d="M${spot(this.xy((edge + low) / 2, start - BAND))}L${spot(this.xy((edge + low) / 2, far))}"/>`);
      const [x, y] = this.xy((low + high) / 2, start - BAND / 2);
      made.push(`<text class="period" x="${rounded(x)}" y="${rounded(y + 4)}">${escaped(title)}</text>`);
      this.reach.push([x - 16, y - 8, x + 16, y + 8]);
      edge = high;
    });
    return made;
  }

  /** Returns one picture, cut to what it shows; an arc that carries `most` has the thickest line. */
  sheetSvg(most, defs) {
    this.boxes = this.nodes.map(it => this.box(it));
    this.reach = [...this.boxes];
    const strength = arc => [this.across.has(arc) ? 1 : 0, Number(absolute(arc.flow))];
    const drawn = [...this.arcs].sort((one, two) => strength(one)[0] - strength(two)[0] || strength(one)[1] - strength(two)[1]);
    // Numbers are placed from the largest flow on; arcs are drawn from the smallest.
    const arcs = new Map([...drawn].reverse().map(it => [it, this.arcSvg(it, most)]));
    const bands = this.bandsSvg(), side = (place, pick) => Math.floor(this.reach.reduce((best, it) => pick(best, it[place]), this.reach[0][place]));
    const left = side(0, Math.min), top = side(1, Math.min), wide = side(2, Math.max) - left + 2 * MARGIN, high = side(3, Math.max) - top + 2 * MARGIN;
    const sheet = `${this.isSmall ? '' : 'class="large" '}width="${wide}" height="${high}" viewBox="${left - MARGIN} ${top - MARGIN} ${wide} ${high}"`;
    const shapes = [...bands, ...drawn.map(it => arcs.get(it)[0]), ...drawn.map(it => arcs.get(it)[1]), ...this.nodes.map(it => this.nodeSvg(it))];
    return `<svg xmlns="http://www.w3.org/2000/svg" role="img" aria-label="the network" ${sheet}>${defs}${shapes.join('\n')}</svg>`;
  }
}
