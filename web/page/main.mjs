// The page: model and data in, the plan or the reason why there is none out.
import { button, byId, element, save, section } from './dom.mjs';
import { decoded, encoded, fromBase64 } from './bytes.mjs';
import { readCut, readError, readPlan, readPotentials } from './answer_text.mjs';
import { Calls, Stopped } from './calls.mjs';
import { readCompiled, sidedCut } from './network.mjs';
import { reasonsOf } from './reasons.mjs';
import { wordsOf } from './headings.mjs';
import { Editor } from './editor.mjs';
import { acceptFiles } from './files.mjs';
import { askForStatement } from './table_dialog.mjs';
import { errorView } from './error_view.mjs';
import { declarationSections, declarationsOf, nodeSection, planHead } from './plan_view.mjs';
import { drawingSection } from './drawing_view.mjs';
import { cutHead, marksOf, reasonSections } from './cut_view.mjs';
import { answerPage, cutCsv, planCsv } from './saving.mjs';
import { keepWork } from './keeping.mjs';

const PARTS = JSON.parse(byId('parts').textContent);
const calls = new Calls(byId('worker').textContent, fromBase64(byId('module').textContent.trim()));
const answer = byId('answer');
// Up to so many arcs the problem is solved once more for its potentials, which show which full arcs would carry more.
const PRICED = 20_000;
// The width below which the editors are one above the other, as in style.css.
const NARROW = matchMedia('(max-width: 46rem)');

let changed = () => {};
const editors = { model: new Editor('model', () => edited()), data: new Editor('data', () => edited()) };
// The number of the last solve, the text that an example replaced, and whether an example is shown as it is.
let running = 0, replaced = null, isExample = false;

function edited() {
  isExample = false;
  byId('example').value = '';
  answer.classList.add('stale');
  byId('welcome').hidden = Boolean(editors.model.area.value || editors.data.area.value);
  listObjectives();
  changed();
}

/** Moves the answer into view if it begins in the lowest part of the window or below. */
function revealAnswer() {
  if (answer.getBoundingClientRect().top > innerHeight * 0.7) byId('solve').scrollIntoView();
}

function say(text, kind = '', more = null) {
  byId('status').className = kind;
  byId('status').replaceChildren(text, more ?? '');
}

/** Offers the names of the model's objectives. */
function listObjectives() {
  const names = [...editors.model.area.value.matchAll(/\b(?:minimize|maximize)\s+([A-Za-z_]\w*)/g)].map(it => it[1]);
  byId('objectives').replaceChildren(...names.map(it => element('option', { value: it })));
  byId('objective-label').hidden = names.length < 2 && !byId('objective').value;
}

// ---- answers

/** Shows the bar to save the answer as files. */
function saveBar(reply, found) {
  const name = found.plan ? 'plan' : 'no_plan', csv = () => (found.plan ? planCsv(found.plan, found.network) : cutCsv(found.network, found.reasons));
  const more = found.network ? [button('Save as CSV', () => save(`${name}.csv`, csv(), 'text/csv')),
    button('Save as page', () => save(`${name}.html`, answerPage(found, byId('style').textContent), 'text/html'))] : [];
  return element('p', { class: 'tools saving' }, button('Save as text', () => save(`${name}.txt`, reply.text, 'text/plain')), ...more);
}

async function showPlan(reply, inputs, isCurrent) {
  const plan = readPlan(decoded(reply.text)), words = wordsOf(decoded(inputs[1]));
  answer.replaceChildren(planHead(plan), saveBar(reply, { plan }), ...declarationSections(declarationsOf(plan, null, words), null));
  revealAnswer();
  const network = await compiledNetwork(inputs);
  if (!network || !isCurrent()) return;
  network.setFlows(plan.declarations.flatMap(it => it.arcs.map(arc => arc.flow)));
  if (network.arcs.length <= PRICED) {
    const certificate = await calls.call('netflow_min', [encoded(network.problem)]);
    if (certificate.status === 0) network.setPotentials(readPotentials(decoded(certificate.text)));
  }
  if (!isCurrent()) return;
  const declarations = declarationsOf(plan, network, words);
  answer.replaceChildren(planHead(plan, network), saveBar(reply, { plan, network, declarations }), drawingSection(network),
    ...declarationSections(declarations, network), nodeSection(network));
}

async function showCut(reply, inputs, isCurrent) {
  const cut = readCut(decoded(reply.text));
  const nodes = section('The nodes', element('ul', { class: 'nodes' }, ...cut.nodes.map(it => element('li', {}, it))));
  answer.replaceChildren(cutHead(cut), saveBar(reply, {}), nodes);
  revealAnswer();
  const network = await compiledNetwork(inputs);
  if (!network || !isCurrent()) return;
  const problem = encoded(network.problem);
  const check = async certificate => (await calls.call('netflow_check', [problem, encoded(certificate)])).status === 0;
  const reasons = await reasonsOf(network, sidedCut(network, cut), check);
  if (!isCurrent()) return;
  const marks = marksOf(network, reasons);
  answer.replaceChildren(cutHead(cut), saveBar(reply, { network, reasons, marks }), ...reasonSections(network, reasons), drawingSection(network, marks));
}

const callWith = (name, [objective, model, data]) => calls.call(name, [objective, false, model, data]);

async function compiledNetwork(inputs) {
  const reply = await callWith('netflow_compile', inputs);
  return reply.status === 0 ? readCompiled(decoded(reply.text)) : null;
}

function showError(reply, inputs) {
  const line = decoded(reply.text).trim(), error = readError(line), editor = editors[error?.input];
  const goThere = () => editor.goToError(error.row, error.column), bytes = { model: inputs[1], data: inputs[2] }[error?.input];
  answer.replaceChildren(errorView(error, line, bytes, PARTS.errors, goThere));
  say(error ? `Error in the ${error.input}, line ${error.row}` : 'The input was rejected', 'bad');
  editor?.markError(error.row);
  // In a narrow window the editors and the explanation do not fit together, and the focus would open a phone's keyboard.
  if (editor && !NARROW.matches) goThere();
  else revealAnswer();
}

const FAILURES = {
  5: 'There is not enough memory for this model in the browser. The netflow program can take more.',
  70: 'The browser ended the call. Reload the page; if it happens again, use the netflow program.',
};

// ---- solving

function setRunning(isRunning) {
  byId('solve').disabled = isRunning;
  byId('stop').disabled = !isRunning;
  answer.setAttribute('aria-busy', isRunning);
}

/** Shows the seconds while a solve runs; returns the function that ends it. */
function showProgress() {
  const start = performance.now(), clock = setInterval(() => {
    byId('seconds').textContent = `${Math.round((performance.now() - start) / 1000)} s`;
  }, 1000);
  return () => {
    clearInterval(clock);
    byId('seconds').textContent = '';
  };
}

async function solve() {
  if (byId('solve').disabled) return;
  const inputs = [encoded(byId('objective').value.trim()), editors.model.bytes(), editors.data.bytes()], number = ++running;
  if (!inputs[1].length) return say('Write a model, open one, or choose an example.');
  for (const it of Object.values(editors)) it.clearError();
  setRunning(true);
  say('Solving');
  let isAnswered = false;
  const endProgress = showProgress();
  try {
    const reply = await callWith('netflow_solve', inputs);
    isAnswered = true;
    const time = reply.milliseconds < 1000 ? `${Math.round(reply.milliseconds)} ms` : `${(reply.milliseconds / 1000).toFixed(1)} s`;
    answer.classList.remove('stale');
    if (reply.status === 0) say(`Optimal plan, in ${time}`, 'good');
    else if (reply.status === 2) say(`No plan exists (found in ${time})`, 'bad');
    else if (reply.status !== 3) {
      answer.replaceChildren();
      say(FAILURES[reply.status] ?? decoded(reply.text), 'bad');
    }
    const isCurrent = () => running === number;
    if (reply.status === 3) showError(reply, inputs);
    else if (reply.status === 0) await showPlan(reply, inputs, isCurrent);
    else if (reply.status === 2) await showCut(reply, inputs, isCurrent);
  } catch (error) {
    const stopped = isAnswered ? 'Stopped. The answer is complete, and its drawing is missing.' : 'Stopped. No answer was found so far.';
    say(error instanceof Stopped ? stopped : String(error.message), 'bad');
    if (!(error instanceof Stopped)) throw error;
  } finally {
    endProgress();
    setRunning(false);
  }
}

// ---- inputs

function showInputs({ model, data = '', objective = '' }, name = '') {
  editors.model.show(encoded(model), name && `${name}.mod`);
  editors.data.show(encoded(data), name && `${name}.dat`);
  byId('objective').value = objective;
  listObjectives();
}

const currentInputs = () => ({ model: editors.model.area.value, data: editors.data.area.value, objective: byId('objective').value });

/** Keeps the text that is about to be replaced; returns the button that brings it back, or null if there is none or it is an example. */
function keepText() {
  const old = currentInputs();
  if (isExample || !(old.model || old.data)) return null;
  replaced = old;
  return button('Bring back my text', bringBack);
}

/** Shows an example. */
function showExample(inputs, title, name = '') {
  say(`${title} Press Solve.`, '', keepText());
  showInputs(inputs, name);
  isExample = true;
  byId('example').value = name;
  answer.replaceChildren();
  byId('solve').focus();
}

/** Shows work that is not in a file, as far as the page knows. */
function showWork(work) {
  showInputs(work);
  for (const it of Object.values(editors)) it.isChanged = true;
}

function bringBack() {
  showWork(replaced);
  say('');
}

/** Lets the models in the documents be tried. */
function offerModels() {
  for (const block of document.querySelectorAll('footer pre')) {
    const model = block.textContent;
    if (!/^(?:minimize|maximize) \w+;/m.test(model) || !/^arc /m.test(model)) continue;
    block.after(button('Try it', () => showExample({ model: `${model}\n` }, 'A model without data.')));
  }
}

/** Opens the document that a link leads to. */
function openDocument(event) {
  const link = event.target.closest?.('a[href^="#"]'), place = link && byId(link.getAttribute('href').slice(1));
  if (place) place.closest('details').open = true;
}

/** Whether text would be lost if the page were closed. */
const isUnsaved = () => !byId('keep').checked && Object.values(editors).some(it => it.isChanged && it.area.value);

async function takeTable(name, bytes) {
  try {
    const declared = [...editors.model.area.value.matchAll(/\b(?:set|param)\s+([A-Za-z_]\w*)/g)].map(it => it[1]);
    const statement = await askForStatement(name, bytes, declared);
    if (!statement) return;
    editors.data.append(statement);
    say(`Added ${name} to the data.`);
  } catch (error) {
    say(`${name}: ${error.message}`, 'bad');
  }
}

function start() {
  for (const [name, { title }] of Object.entries(PARTS.examples)) byId('example').append(element('option', { value: name, title }, name.replaceAll('_', ' ')));
  byId('example').addEventListener('change', ({ target: { value } }) => value && showExample(PARTS.examples[value], PARTS.examples[value].title, value));
  byId('first').addEventListener('click', () => showExample({ model: PARTS.first }, 'Two plants and two shops.'));
  offerModels();
  byId('solve').addEventListener('click', solve);
  byId('stop').addEventListener('click', () => calls.stop());
  byId('objective').addEventListener('input', () => edited());
  addEventListener('keydown', event => {
    if (event.key !== 'Enter' || !(event.ctrlKey || event.metaKey)) return;
    event.preventDefault();
    solve();
  });
  document.addEventListener('click', openDocument);
  addEventListener('beforeunload', event => isUnsaved() && event.preventDefault());
  acceptFiles({ editors, takeTable, keepText, say });
  changed = keepWork(currentInputs, showWork, text => say(text, 'bad'));
  listObjectives();
  calls.ready.then(() => { document.body.dataset.ready = 'true'; }, error => say(`This browser cannot run netflow: ${error.message}`, 'bad'));
  // For scripts, such as the tests: the calls of the module, from bytes to a status and bytes.
  window.netflow = { call: (...words) => calls.call(...words), Calls, workerSource: byId('worker').textContent, ready: calls.ready };
}

start();
