// Texts of numbers. Numbers of netflow can exceed what a JavaScript number holds exactly, so they are big integers.

/** Returns a number with thin spaces between groups of three digits, if it has more than four. */
export function grouped(number) {
  const text = String(number);
  const isNegative = text.startsWith('-');
  const digits = isNegative ? text.slice(1) : text;
  const shown = digits.length > 4 ? digits.replace(/\B(?=(?:\d{3})+$)/g, '\u202f') : digits;
  return (isNegative ? '\u2212' : '') + shown;
}

export const absolute = number => (number < 0n ? -number : number);

export const sum = numbers => numbers.reduce((total, it) => total + it, 0n);

/** Compares two big integers, as a sort needs it. */
export const compared = (one, two) => (one < two ? -1 : one > two ? 1 : 0);

/** Returns `1 arc` or `3 arcs`. */
export const counted = (count, one, many = `${one}s`) => `${grouped(count)} ${Number(count) === 1 ? one : many}`;
