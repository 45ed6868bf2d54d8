// Names of nodes and arcs as planners read them: `Balance PITT` for `Balance['PITT']`. The twin of python/netflow/report/names.py.
import { MEMBER } from './answer_text.mjs';

/** Returns a name with its key, without brackets and quotes; a key that begins with the name is enough alone. */
export function spoken(name) {
  const bracket = name.indexOf('[');
  if (bracket < 0) return name;
  const head = name.slice(0, bracket), key = name.slice(bracket + 1, -1).replaceAll("''", '\u2019').replaceAll("'", '').replaceAll(',', ' ');
  return key.toLowerCase().startsWith(head.toLowerCase()) ? key : `${head} ${key}`;
}

/** Returns the declaration of a node and the members of its key; texts keep their quotes. */
export function keyOf(name) {
  const bracket = name.indexOf('[');
  return bracket < 0 ? { head: name, key: [] } : { head: name.slice(0, bracket), key: name.slice(bracket + 1).match(MEMBER) ?? [] };
}
