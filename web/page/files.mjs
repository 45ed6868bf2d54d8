// Opening and dropping files: models, data, and tables.
import { byId } from './dom.mjs';
import { decoded, encoded } from './bytes.mjs';
import { TOKEN } from './headings.mjs';

const BYTE_ORDER_MARK = [0xef, 0xbb, 0xbf];

/** Returns the bytes of a file without a byte order mark, which netflow rejects and some editors write. */
async function bytesOf(file) {
  const bytes = new Uint8Array(await file.arrayBuffer());
  return BYTE_ORDER_MARK.every((it, here) => bytes[here] === it) && !/\.csv$/i.test(file.name) ? bytes.slice(3) : bytes;
}

const isTable = file => /\.(csv|tsv)$/i.test(file.name);

/** Returns where a file goes: by its name, else to where it was dropped. */
const homeOf = (file, name) => (/\.dat$/i.test(file.name) ? 'data' : /\.mod$/i.test(file.name) ? 'model' : name);

/** Returns the model and the data of a text with both, in which `data;` stands between them; null if it has no `data;`. */
export function splitModel(text) {
  const [one, two] = [{ word: ';' }, { word: ';' }];
  for (const { 0: word, index } of text.matchAll(TOKEN)) {
    if (word.startsWith('#') || word.startsWith('/*')) continue;
    if (word === ';' && two.word === 'data' && one.word === ';') {
      return { model: text.slice(0, two.index), data: text.slice(index + 1).replace(/\bend\s*;\s*$/, '').trimStart() };
    }
    Object.assign(one, two);
    Object.assign(two, { word, index });
  }
  return null;
}

/** Takes files: several data files are joined in their order, and tables are passed on one by one. */
export async function takeFiles(files, name, { editors, takeTable, keepText, say }) {
  const found = { model: [], data: [] };
  for (const file of files) {
    if (/\.xlsx?$|\.ods$/i.test(file.name)) return say(`${file.name} is a workbook. Save the sheet as CSV in UTF-8, and open that.`);
    if (!isTable(file)) found[homeOf(file, name)].push({ name: file.name, bytes: await bytesOf(file) });
  }
  const names = Object.values(found).flat().map(it => it.name);
  if (names.length) say(`Opened ${names.join(' and ')}. Press Solve.`, '', keepText());
  for (const [home, parts] of Object.entries(found)) {
    if (parts.length) editors[home].show(await joined(parts.map(it => it.bytes)), parts.length === 1 ? parts[0].name : '');
  }
  const both = found.model.length && !found.data.length ? splitModel(decoded(editors.model.bytes())) : null;
  if (both) {
    editors.model.show(encoded(both.model));
    editors.data.show(encoded(both.data));
  }
  for (const file of files) if (isTable(file)) await takeTable(file.name, await bytesOf(file));
}

async function joined(parts) {
  return parts.length === 1 ? parts[0] : new Uint8Array(await new Blob(parts.flatMap(it => [it, '\n'])).arrayBuffer());
}

/** Lets the boxes of the editors and the page take files. */
export function acceptFiles(how) {
  for (const name of ['model', 'data']) {
    const input = byId(`${name}-file`), box = byId(`${name}-box`);
    input.addEventListener('change', async () => {
      await takeFiles([...input.files], name, how);
      input.value = '';
    });
    box.addEventListener('dragover', () => box.classList.add('over'));
    box.addEventListener('dragleave', () => box.classList.remove('over'));
    box.addEventListener('drop', event => drop(event, name, how));
  }
  // A file that misses the editors must not replace the page.
  addEventListener('dragover', event => event.preventDefault());
  addEventListener('drop', event => drop(event, 'model', how));
}

function drop(event, name, how) {
  document.querySelectorAll('.over').forEach(it => it.classList.remove('over'));
  if (!event.dataTransfer?.files.length) return;
  event.preventDefault();
  event.stopPropagation();
  takeFiles([...event.dataTransfer.files], name, how);
}
