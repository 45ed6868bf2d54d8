// What the parts of a key are called, by the words of the model. The twin of `headings` in python/netflow/reading/headings.py.

export const TOKEN = /#[^\n]*|\/\*[^]*?\*\/|'(?:[^'\n]|'')*'|"(?:[^"\n]|"")*"|:=|[\p{L}\p{N}_.+-]+|\S/gu;
const NAME = /^[A-Za-z_][\p{L}\p{N}_]*$/u;
const OPENING = '{([', CLOSING = '})]';

const depthOf = word => (OPENING.includes(word) ? 1 : CLOSING.includes(word) ? -1 : 0);

/** Returns the words of a model without its comments. */
export const wordsOf = text => (text.match(TOKEN) ?? []).filter(it => !it.startsWith('#') && !it.startsWith('/*'));

/** Returns the words between the braces of a declaration of arcs, up to a condition; none if it has no braces. */
function bracesOf(words, name) {
  const here = words.findIndex((it, at) => it === 'arc' && words[at + 1] === name && words[at + 2] === '{' && at + 3 < words.length), found = [];
  let depth = 0;
  for (const word of here < 0 ? [] : words.slice(here + 3)) {
    if (depth === 0 && (word === ':' || word === '}')) break;
    depth += depthOf(word);
    found.push(word);
  }
  return found;
}

/** Returns the items of braces: the words between their commas. */
function itemsOf(words) {
  const found = [[]];
  let depth = 0;
  for (const word of words) {
    depth += depthOf(word);
    if (word === ',' && depth === 0) found.push([]);
    else found.at(-1).push(word);
  }
  return found;
}

/** Returns what the parts of a key of so many parts are called: sets, or dummies, or else `key 1` and so on. */
export function headings(words, name, count) {
  const found = [], lone = [];
  for (const item of itemsOf(bracesOf(words, name))) {
    const cut = Math.max(0, item.indexOf('in')), dummies = item.slice(0, cut).filter(it => NAME.test(it)), set = item.slice(cut && cut + 1).join(' ');
    if (!dummies.length && NAME.test(set)) lone.push(set);
    const isNamed = dummies.length <= 1 && NAME.test(set);
    for (const it of dummies.length ? dummies : [set]) found.push([isNamed ? set : it, it]);
  }
  const more = count - found.length;
  if (more > 0 && lone.length === 1) {
    // A set of tuples without dummies has as many parts as are left.
    const place = found.findIndex(([one, two]) => one === lone[0] && two === lone[0]);
    found.splice(place, 1, ...Array.from({ length: more + 1 }, (_, here) => [`${lone[0]} ${here + 1}`, `${lone[0]} ${here + 1}`]));
  }
  const sets = found.map(([set]) => set), areSets = new Set(sets).size === sets.length && sets.every(it => NAME.test(it));
  const titles = areSets ? sets : found.map(([, dummy]) => dummy);
  const isUsable = titles.length === count && titles.every(Boolean) && new Set(titles).size === count;
  return isUsable ? titles : Array.from({ length: count }, (_, here) => `key ${here + 1}`);
}
