// Texts as bytes.

export const encoded = text => new TextEncoder().encode(text);

export const decoded = bytes => new TextDecoder('utf-8', { ignoreBOM: true }).decode(bytes);

/** Returns the bytes of base64. */
export const fromBase64 = text => Uint8Array.from(atob(text), letter => letter.charCodeAt(0));

/** Returns the part of a line of a file before a column, which counts bytes from 1, and the line. Rows are counted from 1. */
export function lineAt(bytes, row, column) {
  let start = 0;
  for (let here = 1; here < row; here++) start = bytes.indexOf(10, start) + 1;
  const end = bytes.indexOf(10, start), line = bytes.subarray(start, end < 0 ? bytes.length : end);
  return { before: decoded(line.subarray(0, column - 1)), line: decoded(line).replace(/\r$/, '') };
}

/** Returns the token at the start of a text: a name, a number, a string, or one character; a blank at the end of a line. */
export const firstToken = text => /^(?:[\p{L}\p{N}_.]+|'[^'\n]*'?|"[^"\n]*"?|:=|<=|>=|<>|!=|[^])/u.exec(text)?.[0] ?? '';
