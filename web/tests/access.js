// The rules of WCAG 2.2 that a script can check, by their numbers; the body of a function that returns what breaks them. `page` is the
// window. It opens all parts of the page that are folded.
const found = [], all = selector => [...document.querySelectorAll(selector)];
const isVisible = it => it.getClientRects().length && getComputedStyle(it).visibility !== 'hidden';
const shown = selector => all(selector).filter(isVisible);
const report = (rule, text, it) => found.push(`${rule} ${text}: ${(it?.outerHTML ?? '').slice(0, 90)}`);
for (const it of all('details')) it.open = true;

// Colours: the background is that of the nearest element that has one.
const channel = value => { const part = value / 255; return part <= 0.04045 ? part / 12.92 : ((part + 0.055) / 1.055) ** 2.4; };
const light = ([r, g, b]) => 0.2126 * channel(r) + 0.7152 * channel(g) + 0.0722 * channel(b);
const colour = text => (text.match(/[\d.]+/g) ?? []).map(Number);
const ratio = (one, two) => { const [less, more] = [light(one), light(two)].sort((a, b) => a - b); return (more + 0.05) / (less + 0.05); };
const isOpaque = back => back.length === 3 || back[3] > 0.99;
const backOf = it => { for (let at = it; at; at = at.parentElement) { const back = colour(getComputedStyle(at).backgroundColor); if (isOpaque(back)) return back; } return [255, 255, 255]; };

// 1.3.1 and 4.1.2: names, references, headings, languages.
const nameOf = it => it.getAttribute('aria-label') || it.textContent.trim() || [...(it.labels ?? [])].map(label => label.textContent.trim()).join('');
for (const it of shown('button, input, select, textarea, [tabindex="0"], summary, a')) if (!nameOf(it)) report('4.1.2', 'no name', it);
const ids = all('[id]').map(it => it.id);
for (const id of ids) if (ids.indexOf(id) !== ids.lastIndexOf(id)) report('4.1.2', `the id ${id} twice`);
for (const it of all('[aria-describedby], [aria-labelledby]')) {
  for (const id of (it.getAttribute('aria-describedby') ?? it.getAttribute('aria-labelledby')).split(' ')) if (!document.getElementById(id)) report('1.3.1', `no element ${id}`, it);
}
for (const it of all('th')) if (!it.getAttribute('scope')) report('1.3.1', 'a heading without scope', it);
for (const it of all('svg')) if (!it.getAttribute('role') && !it.querySelector('title')) report('1.1.1', 'a drawing without a name', it);
let level = 0;
for (const it of shown('h1, h2, h3, h4, h5, h6')) {
  const next = Number(it.tagName[1]);
  if (next > level + 1) report('1.3.1', `a heading of level ${next} after ${level}`, it);
  level = next;
}
if (!document.documentElement.lang) report('3.1.1', 'no language');
if (!document.title) report('2.4.2', 'no title');
if (all('h1').length !== 1 || all('main').length !== 1) report('1.3.1', 'not one h1 and one main part');

// 1.4.3 and 1.4.11: contrasts of texts and borders.
for (const it of all('body *')) {
  if (!isVisible(it) || it.closest('svg') || it.disabled || it.closest('.stale') || ![...it.childNodes].some(child => child.nodeType === 3 && child.textContent.trim())) continue;
  const style = getComputedStyle(it), contrast = ratio(colour(style.color), backOf(it));
  if (contrast < (parseFloat(style.fontSize) >= 24 ? 3 : 4.5)) report('1.4.3', `contrast ${contrast.toFixed(2)}`, it);
}
for (const it of shown('[placeholder]')) {
  const style = getComputedStyle(it, '::placeholder'), contrast = Number(style.opacity) * ratio(colour(style.color), backOf(it));
  if (contrast < 4.5) report('1.4.3', `contrast ${contrast.toFixed(2)} of the placeholder`, it);
}
for (const it of shown('svg text')) {
  const box = it.closest('.node')?.querySelector('rect'), back = box ? colour(getComputedStyle(box).fill) : backOf(it.closest('div'));
  const contrast = ratio(colour(getComputedStyle(it).fill), back);
  if (contrast < 4.5) report('1.4.3', `contrast ${contrast.toFixed(2)}`, it);
}
for (const it of shown('button, select, input[type=text], input[type=search], .button')) {
  const contrast = ratio(colour(getComputedStyle(it).borderTopColor), backOf(it.parentElement));
  if (!it.disabled && contrast < 3) report('1.4.11', `contrast ${contrast.toFixed(2)} of the border`, it);
}

// 1.4.10: no scrolling in two directions. 2.5.8: sizes of what is pressed; links in a text are exempt.
if (document.documentElement.scrollWidth > innerWidth + 1) report('1.4.10', `the page is ${document.documentElement.scrollWidth} wide in a window of ${innerWidth}`);
for (const it of shown('button, select, summary, input:not([type=file]), .button')) {
  const { width, height } = (it.closest('label') ?? it).getBoundingClientRect();
  if (Math.min(width, height) < 24) report('2.5.8', `${width.toFixed(0)} by ${height.toFixed(0)} pixels`, it);
}

// 2.4.7: the focus can be seen. The nodes of a drawing show it by their border.
const focused = document.activeElement;
for (const it of shown('button, select, textarea, input, summary, a, [tabindex="0"]')) {
  if (it.disabled) continue;
  it.focus({ focusVisible: true, preventScroll: true });
  if (document.activeElement !== it) { report('2.1.1', 'no focus', it); continue; }
  const box = it.matches('.node') ? it.querySelector('rect') : it.matches('.button input') ? it.parentElement : it, style = getComputedStyle(box);
  const outline = style.outlineStyle === 'none' ? '0' : style.outlineWidth;
  const [width, line] = it.matches('.node') ? [style.strokeWidth, style.stroke] : [outline, style.outlineColor];
  if (parseFloat(width) < 2 || ratio(colour(line), backOf(it.parentElement)) < 3) report('2.4.7', 'the focus is not seen', it);
}
focused.focus({ preventScroll: true });
for (const it of all('footer details')) it.open = false;
return found;
