// The dialog that makes a statement of the data from a table.
import { byId, element } from './dom.mjs';
import { SheetError, gridStatement, isName, listStatement, readRows, setStatement, textOfSheet } from './sheets.mjs';

const FIELDS = { grid: ['name', 'turned', 'factor', 'comma'], list: ['keys', 'members', 'factor', 'comma'], set: ['name', 'heading'] };

const field = name => byId(`table-${name}`);

/** Returns the name that a file's statement probably has: one of the model that is like the file's, or that of the file. */
function nameOf(file, declared) {
  const name = file.replace(/\.[^.]*$/, '').replace(/\W/g, '_'), plain = it => it.toLowerCase().replace(/s$/, '');
  return declared.find(it => it === name) ?? declared.find(it => plain(it) === plain(name)) ?? (isName(name) ? name : '');
}

/** Returns the kind that a table probably is: a grid has an empty first cell, a set one column. */
function guessed(rows) {
  if (!rows[0][0].text && rows[0].length > 1) return 'grid';
  return rows.every(it => it.length === 1) ? 'set' : 'list';
}

/** Returns the statement for the table by the fields of the dialog. */
function statementOf(rows) {
  const kind = field('kind').value, factor = field('factor').value.trim();
  if (!/^[1-9]\d{0,6}$/.test(factor)) throw new SheetError('The factor is a whole number such as 1, 10 or 100.');
  const how = { factor: BigInt(factor), hasComma: field('comma').checked }, name = field('name').value.trim(), set = field('members').value.trim();
  if (kind !== 'list' && !isName(name)) throw new SheetError(`Write the name of the ${kind === 'set' ? 'set' : 'parameter'} in the model.`);
  if (kind === 'list' && set && !isName(set)) throw new SheetError(`'${set}' is no name of a set.`);
  if (kind === 'grid') return gridStatement(rows, { name, isTurned: field('turned').checked, ...how });
  if (kind === 'list') return listStatement(rows, { keys: Number(field('keys').value), set, ...how });
  return setStatement(rows, { name, hasHeading: field('heading').checked });
}

const FIRST_LINES = 12;

function preview(rows) {
  const add = field('add'), shown = field('preview'), problem = field('problem');
  for (const it of new Set(Object.values(FIELDS).flat())) field(it).closest('label').hidden = !FIELDS[field('kind').value].includes(it);
  try {
    const lines = statementOf(rows).split('\n'), left = lines.length - FIRST_LINES;
    shown.textContent = lines.slice(0, FIRST_LINES).join('\n') + (left > 0 ? `\n… and ${left} more lines` : '');
    problem.textContent = '';
    add.disabled = false;
  } catch (error) {
    if (!(error instanceof SheetError)) throw error;
    problem.textContent = error.message;
    shown.textContent = '';
    add.disabled = true;
  }
}

/** Asks how a table becomes a statement, and offers the names that the model declares; resolves to the statement, or to null. */
export function askForStatement(file, bytes, declared) {
  const rows = readRows(textOfSheet(bytes)), dialog = field('dialog');
  field('title').textContent = `Add ${file} to the data`;
  field('kind').value = guessed(rows);
  field('name').value = nameOf(file, declared);
  field('names').replaceChildren(...declared.map(it => element('option', { value: it })));
  field('members').value = '';
  const update = () => preview(rows);
  dialog.oninput = update;
  update();
  dialog.showModal();
  return new Promise(done => {
    field('add').onclick = () => dialog.close('add');
    field('cancel').onclick = () => dialog.close('');
    dialog.onclose = () => {
      done(dialog.returnValue === 'add' ? statementOf(rows) : null);
      dialog.returnValue = '';
    };
  });
}
