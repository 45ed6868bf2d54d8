// The drawing of the network in the page.
import { button, element, section } from './dom.mjs';
import { absolute, compared, counted, grouped } from './numbers.mjs';
import { draw } from './drawing.mjs';

// The most arcs of a network that is drawn whole, and of any drawing.
const WHOLE = 60, MOST = 400;
const LEGEND = [['used', 'carries something'], ['full', 'full, and more would help'], ['across', 'to or from the nodes in red'], ['idle', 'carries nothing']];

/** Returns the arcs to draw: all of a small network; else those in use, the largest first, or those of the nodes that are short. */
export function drawnArcs(network, hasPlan, marked, across) {
  const { arcs } = network;
  if (arcs.length <= WHOLE) return arcs;
  const isBefore = (one, two) => across.has(two) - across.has(one) || compared(absolute(two.flow), absolute(one.flow));
  if (hasPlan) return arcs.filter(it => it.flow).sort(isBefore).slice(0, MOST);
  return [...arcs.filter(it => across.has(it)), ...arcs.filter(it => marked.has(it.src) && marked.has(it.dst))].slice(0, MOST);
}

/** Returns the SVG text of the network, and how many arcs it shows. */
export function drawingText(network, { hasPlan = true, marked = new Set(), across = new Set() } = {}) {
  const arcs = drawnArcs(network, hasPlan, marked, across);
  return { count: arcs.length, text: arcs.length ? draw(network, arcs, { marked, across, alone: arcs.length === network.arcs.length }) : '' };
}

/** Returns the section of the drawing. */
export function drawingSection(network, how) {
  const { text, count } = drawingText(network, how), hasPlan = how?.hasPlan ?? true;
  const nothing = hasPlan ? 'No arc carries anything, so none is drawn.' : 'No arc leads to or from these nodes, so none is drawn.';
  if (!count) return section('Drawing', element('p', {}, nothing));
  const box = element('div', { class: 'picture', tabindex: 0, role: 'region', 'aria-label': 'Drawing of the network' });
  box.innerHTML = text;
  const meaningOf = ([kind, means]) => (!hasPlan && kind === 'idle' ? 'another arc' : means);
  const keys = LEGEND.filter(([kind]) => text.includes(`class="arc ${kind} `)).map(it => element('span', {}, element('i', { class: it[0] }), meaningOf(it)));
  const note = count < network.arcs.length ? element('span', {}, partNote(count, network.arcs.length, hasPlan)) : '';
  const scale = scaler(box);
  const tools = element('span', { class: 'tools' }, button('Larger', () => scale(1.25)), button('Smaller', () => scale(0.8)), button('Fit', () => scale(0)));
  connect(box);
  // The picture gets its size when the page has placed it.
  new ResizeObserver((_, observer) => {
    if (!box.clientWidth) return;
    observer.disconnect();
    scale(0, 0.45);
  }).observe(box);
  return section('Drawing', element('p', { class: 'key' }, ...keys, note, tools), box);
}

/** Returns what a drawing says if it does not show all arcs. */
function partNote(count, all, hasPlan) {
  const what = hasPlan ? 'those that carry something' : 'those of the nodes that are short';
  const most = count === MOST ? `, the ${hasPlan ? 'largest' : 'first'} ${MOST}` : '';
  return `${grouped(count)} of ${counted(all, 'arc')} are drawn: ${what}${most}. The tables have all.`;
}

/** Returns the function that makes the pictures of a box larger by a factor, or with 0 as wide as the box. */
function scaler(box) {
  const pictures = [...box.querySelectorAll('svg')].map(it => ({ it, wide: Number(it.getAttribute('width')), high: Number(it.getAttribute('height')) }));
  const widest = Math.max(...pictures.map(({ wide }) => wide));
  let scale = 1;
  return (factor, least = 0.1) => {
    scale = Math.min(4, Math.max(least, factor ? scale * factor : Math.min(1, (box.clientWidth - 2) / widest)));
    for (const { it, wide, high } of pictures) {
      it.setAttribute('width', wide * scale);
      it.setAttribute('height', high * scale);
    }
  };
}

/** Shows only the arcs of a node while the pointer or the keyboard is on it. */
function connect(box) {
  const arcs = [...box.querySelectorAll('.arc')];
  for (const node of box.querySelectorAll('.node')) {
    const show = isOn => arcs.forEach(arc => {
      const isOwn = arc.classList.contains(node.id);
      arc.classList.toggle('faint', isOn && !isOwn);
      arc.classList.toggle('near', isOn && isOwn);
    });
    for (const event of ['mouseenter', 'focus']) node.addEventListener(event, () => show(true));
    for (const event of ['mouseleave', 'blur']) node.addEventListener(event, () => show(false));
  }
}
