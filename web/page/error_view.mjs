// The error of an input: at its line, with the explanation of the list of errors.
import { button, element } from './dom.mjs';
import { firstToken, lineAt } from './bytes.mjs';

// The most letters of a long line that are shown before and after the error.
const AROUND = 60;

/** Returns the element of an error: the line of its input with the error marked, and what the code means. */
export function errorView(error, line, bytes, explanations, goThere) {
  const box = element('div', { class: 'error' });
  if (!error) {
    box.append(element('p', { class: 'headline' }, line));
    return box;
  }
  box.append(element('p', { class: 'headline' }, `Error in the ${error.input}, line ${error.row}`));
  if (bytes) box.append(markedLine(bytes, error), button('Go to the line', goThere));
  const explanation = explanations[error.code];
  if (explanation) {
    const holder = element('div', { class: 'explanation' });
    // The text was made of docs/reference/errors.md when the page was built.
    holder.innerHTML = explanation;
    box.append(element('h2', {}, `${error.code} ${error.name}`), holder);
  }
  box.append(element('p', { class: 'dim' }, 'netflow prints ', element('code', {}, line), '.'));
  return box;
}

function markedLine(bytes, { row, column }) {
  const { before, line } = lineAt(bytes, row, column), rest = line.slice(before.length), token = firstToken(rest);
  const start = before.length > AROUND ? `…${before.slice(-AROUND)}` : before, after = rest.slice(token.length);
  const mark = element('mark', {}, token || '\u00a0');
  const end = after.length > AROUND ? `${after.slice(0, AROUND)}…` : after;
  return element('pre', { class: 'source', tabindex: 0, 'aria-label': `Line ${row}` }, start, mark, end);
}
