// Elements of the page.

export const byId = id => document.getElementById(id);

/** Returns an element with attributes, listeners (`onclick`), and children, which are elements or texts. */
export function element(tag, attributes = {}, ...children) {
  const made = document.createElement(tag);
  for (const [name, value] of Object.entries(attributes)) {
    if (name.startsWith('on')) made.addEventListener(name.slice(2), value);
    else if (value === true) made.setAttribute(name, '');
    else if (value !== false && value !== null && value !== undefined) made.setAttribute(name, value);
  }
  made.append(...children.filter(it => it !== null && it !== undefined && it !== ''));
  return made;
}

/** Returns a button with a text. */
export const button = (text, onclick, more = {}) => element('button', { type: 'button', onclick, ...more }, text);

/** Returns a part of the page with a heading. */
export const section = (title, ...children) => element('section', { 'aria-label': title }, element('h2', {}, title), ...children);

/** Offers a file to save. */
export function save(name, text, type) {
  const url = URL.createObjectURL(new Blob([text], { type }));
  const link = element('a', { href: url, download: name });
  document.body.append(link);
  link.click();
  link.remove();
  setTimeout(() => URL.revokeObjectURL(url), 60_000);
}
