// What the page computes that Python computes too, for tests/twins.py: reads one JSON request a line, and answers with a line.
import readline from 'readline';
import { readPlan } from '../page/answer_text.mjs';
import { readCompiled } from '../page/network.mjs';
import { draw } from '../page/drawing.mjs';
import { headings, wordsOf } from '../page/headings.mjs';
import { gridStatement, listStatement, readRows, setStatement } from '../page/sheets.mjs';

const STATEMENTS = { grid: gridStatement, list: listStatement, set: setStatement };

function answerTo({ kind, ...request }) {
  if (kind === 'headings') return headings(wordsOf(request.model), request.name, request.count);
  if (kind === 'table') {
    const { statement, text, options } = request;
    try {
      return STATEMENTS[statement](readRows(text), { ...options, factor: BigInt(options.factor ?? 1) });
    } catch (error) {
      return { rejected: error.message };
    }
  }
  const network = readCompiled(request.compiled);
  if (request.plan) network.setFlows(readPlan(request.plan).declarations.flatMap(it => it.arcs.map(arc => arc.flow)));
  network.arcs.forEach((arc, here) => { arc.worth = BigInt(request.worths[here]); });
  const pick = numbers => numbers.map(it => network.arcs[it]);
  return draw(network, pick(request.arcs), { marked: new Set(request.marked), across: new Set(pick(request.across)), alone: request.alone });
}

for await (const line of readline.createInterface({ input: process.stdin })) console.log(JSON.stringify(answerTo(JSON.parse(line))));
