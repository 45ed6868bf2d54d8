// Layers, orders and positions for the drawing of a network. The twin of python/netflow/report/layout.py: a test compares the drawings.

/** A point in a layer that a long arc passes. */
export class Bend {}

export const mean = (numbers, other) => (numbers.length ? numbers.reduce((total, it) => total + it, 0) / numbers.length : other);

/** Returns the value of a key in a map of lists, which gets an empty list first if it has none. */
export function listAt(map, key) {
  if (!map.has(key)) map.set(key, []);
  return map.get(key);
}

/** Returns the layer of each node, from 0: by the longest path to it, or by the shortest if the longest would stretch the picture. */
export function layers(nodes, arcs) {
  const { into, out } = neighbours(nodes, arcs), { order, back } = walked(nodes, into, out), longest = new Map();
  for (const it of order) {
    const before = into.get(it).filter(other => !back.has(`${other},${it}`)).map(other => longest.get(other));
    longest.set(it, 1 + Math.max(-1, ...before));
  }
  if (back.size && Math.max(0, ...longest.values()) > 3 + 2 * Math.sqrt(nodes.length)) return nearest(nodes, into, out);
  return pulled(longest, out, back);
}

/** Returns the nodes in topological order, and the steps that close cycles and are left out of it. */
function walked(nodes, into, out) {
  const order = [], back = new Set(), state = new Map();
  const starts = [...nodes].sort((one, two) => (into.get(one).length > 0) - (into.get(two).length > 0) || one - two);
  for (const start of starts) {
    const path = state.has(start) ? [] : [{ here: start, next: 0 }];
    if (!state.has(start)) state.set(start, 1);
    while (path.length) {
      const step = path.at(-1), there = out.get(step.here)[step.next++];
      if (there === undefined) {
        path.pop();
        state.set(step.here, 2);
        order.push(step.here);
      } else if (!state.has(there)) {
        state.set(there, 1);
        path.push({ here: there, next: 0 });
      } else if (state.get(there) === 1) {
        back.add(`${step.here},${there}`);
      }
    }
  }
  return { order: order.reverse(), back };
}

/** Returns layers by the number of arcs from the sources. */
function nearest(nodes, into, out) {
  const sources = nodes.filter(it => !into.get(it).length), line = sources.length ? sources : nodes.slice(0, 1);
  const found = new Map(line.map(it => [it, 0]));
  for (const rest of [[], nodes]) {
    for (const it of rest.filter(node => !found.has(node))) {
      found.set(it, 0);
      line.push(it);
    }
    for (const it of line) for (const there of out.get(it)) {
      if (found.has(there)) continue;
      found.set(there, found.get(it) + 1);
      line.push(there);
    }
  }
  return found;
}

/** Moves a node that nothing leads to just before the first node that it leads to. */
function pulled(found, out, back) {
  for (const it of found.keys()) {
    if (found.get(it) !== 0) continue;
    const after = out.get(it).filter(there => !back.has(`${it},${there}`)).map(there => found.get(there));
    found.set(it, after.length ? Math.max(0, Math.min(...after) - 1) : 0);
  }
  return found;
}

/** Returns positions as near to the wanted ones as possible, in this order, with the distances that the sizes require. */
export function apart(wanted, sizes) {
  const shifts = [], blocks = [];
  let total = 0;
  sizes.forEach((size, here) => {
    total += here ? (sizes[here - 1] + size) / 2 : 0;
    shifts.push(total);
  });
  wanted.forEach((want, here) => {
    blocks.push([want - shifts[here], 1]);
    while (blocks.length > 1 && blocks.at(-2)[0] > blocks.at(-1)[0]) {
      const [second, more] = blocks.pop(), [first, many] = blocks.pop();
      blocks.push([(first * many + second * more) / (many + more), many + more]);
    }
  });
  return blocks.flatMap(([place, many]) => Array(many).fill(place)).map((it, here) => it + shifts[here]);
}

/** Returns the sets of nodes that the arcs connect, each in order. */
export function components(nodes, arcs) {
  const head = new Map(nodes.map(it => [it, it])), found = new Map();
  const top = start => {
    let it = start;
    while (head.get(it) !== it) {
      head.set(it, head.get(head.get(it)));
      it = head.get(it);
    }
    return it;
  };
  for (const arc of arcs) {
    if (!head.has(arc.src) || !head.has(arc.dst)) continue;
    const [one, two] = [top(arc.src), top(arc.dst)].sort((first, second) => first - second);
    head.set(two, one);
  }
  for (const it of nodes) listAt(found, top(it)).push(it);
  return [...found.values()];
}

/** Whether the arcs between these nodes contain a cycle. */
export function hasCycle(nodes, arcs) {
  const { into, out } = neighbours(nodes, arcs);
  return walked(nodes, into, out).back.size > 0;
}

function neighbours(nodes, arcs) {
  const into = new Map(nodes.map(it => [it, []])), out = new Map(nodes.map(it => [it, []]));
  for (const arc of arcs) {
    if (!into.has(arc.src) || !into.has(arc.dst) || arc.src === arc.dst) continue;
    out.get(arc.src).push(arc.dst);
    into.get(arc.dst).push(arc.src);
  }
  return { into, out };
}
