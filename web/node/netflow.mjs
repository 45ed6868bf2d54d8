#!/usr/bin/env node
// netflow's command line over the WebAssembly module, for node 20 or later. Without --help it prints what the program prints.
import fs from 'fs';
import path from 'path';
import { fileURLToPath } from 'url';
import { Instance, OUT_OF_MEMORY } from '../page/netflow_module.mjs';

const VERSION = '@VERSION@';
const MIB = 2 ** 20;
// The inputs of each command with the sizes up to which they are accepted: one byte more is read, so that the module rejects the rest.
const COMMANDS = {
  solve: { inputs: { model: MIB, data: 16 * MIB }, isModel: true },
  compile: { inputs: { model: MIB, data: 16 * MIB }, isModel: true },
  min: { inputs: { problem: 64 * MIB } },
  check: { inputs: { problem: 64 * MIB, certificate: 64 * MIB } },
};
const HELP = `Usage: netflow.mjs COMMAND FILE..

  solve MODEL DATA [--objective NAME] [--lean]      prints an optimal plan, or why there is none
  compile MODEL DATA [--objective NAME] [--lean]    prints the model as a DIMACS problem
  min PROBLEM                                       prints a certificate of a DIMACS problem
  check PROBLEM CERTIFICATE                         prints yes, or no with the reason

The exit status is that of netflow: 0 done, 2 no plan or no, 3 input rejected, 4 file not read or output not written, 5 out of memory,
64 wrong command line. The module netflow.wasm must be in the folder of this file.
`;

/** What is wrong with a command line. */
class UsageError extends Error {}

/** Returns the command, the paths and the options of a command line. */
export function parsed(words) {
  const [name, ...rest] = words, command = COMMANDS[name], paths = [], found = { name, command, paths, objective: '', isLean: false };
  if (!command) throw new UsageError(name === undefined ? 'a command is missing' : `no command is named '${name}'`);
  const seen = new Set(), once = option => {
    if (!command.isModel || seen.has(option)) throw new UsageError(`${option} is not allowed here`);
    seen.add(option);
  };
  while (rest.length) {
    const word = rest.shift();
    if (word === '--') {
      paths.push(...rest.splice(0));
    } else if (word === '--objective' || word.startsWith('--objective=')) {
      once('--objective');
      if (word === '--objective' && !rest.length) throw new UsageError('--objective needs a name');
      found.objective = word === '--objective' ? rest.shift() : word.slice('--objective='.length);
      found.hasObjective = true;
    } else if (word === '--lean') {
      once(word);
      found.isLean = true;
    } else if (word.startsWith('-') && word !== '-') {
      throw new UsageError(`no option is named '${word}'`);
    } else {
      paths.push(word);
    }
  }
  const wanted = Object.keys(command.inputs);
  if (paths.length !== wanted.length) throw new UsageError(`${name} takes ${wanted.join(' and ').toUpperCase()}`);
  return found;
}

const STANDARD_INPUT = '/dev/stdin';

/** Reads a file, or standard input as it is, up to one byte more than the limit; returns null if it cannot be read. */
function readUpTo(file, limit) {
  const parts = [];
  let size = 0, descriptor;
  try {
    descriptor = file === STANDARD_INPUT ? 0 : fs.openSync(file, 'r');
    while (size <= limit) {
      const part = Buffer.allocUnsafe(Math.min(65536 * 4, limit + 1 - size)), count = fs.readSync(descriptor, part);
      if (!count) break;
      parts.push(part.subarray(0, count));
      size += count;
    }
    return Buffer.concat(parts);
  } catch {
    return null;
  } finally {
    if (descriptor) fs.closeSync(descriptor);
  }
}

const rejectedLine = (status, line) => ({ status, output: Buffer.alloc(0), error: `${line}\n` });

/** Runs a command line over an instance that `instantiate` makes; returns its status, output and error text. */
export function run(words, instantiate) {
  if (words.some(it => it.includes('\ufffd'))) return rejectedLine(64, 'netflow: a word of the command line is not UTF-8');
  let asked;
  try {
    asked = parsed(words);
  } catch (error) {
    if (!(error instanceof UsageError)) throw error;
    return rejectedLine(64, `netflow: ${error.message}; --help lists the commands`);
  }
  const inputs = [];
  for (const [here, [name, limit]] of Object.entries(asked.command.inputs).entries()) {
    const bytes = readUpTo(asked.paths[here], limit);
    if (!bytes) return unread(name, asked, inputs, instantiate);
    inputs.push(bytes);
  }
  return answered(asked, inputs, instantiate());
}

/** Returns the error for an input that cannot be read: the problem of a certificate is checked before the certificate is read. */
function unread(name, asked, inputs, instantiate) {
  const first = name === 'certificate' ? answered(asked, [...inputs, Buffer.alloc(0)], instantiate()) : null;
  return first?.status === 3 && first.error.includes(' problem ') ? first : rejectedLine(4, `E90 ReadFault ${name}`);
}

function answered({ name, command, objective, hasObjective, isLean }, inputs, instance) {
  // For the module an empty name means the model's only objective, and for the command line a name that no objective has.
  if (hasObjective && !objective) objective = ' ';
  const before = command.isModel ? [Buffer.from(objective), isLean] : [];
  const { status, text } = instance.call(`netflow_${name}`, [...before, ...inputs]);
  if (status === OUT_OF_MEMORY) return rejectedLine(status, 'out of memory');
  if (status === 0 || status === 2) return { status, output: Buffer.from(text), error: '' };
  const line = Buffer.from(text).toString();
  return rejectedLine(status, objective === ' ' ? line.replace(/ +$/, '') : line);
}

/** Writes the output and the error, and returns the exit status. */
function written({ status, output, error }) {
  try {
    for (let at = 0; at < output.length;) at += fs.writeSync(1, output, at);
  } catch {
    fs.writeSync(2, 'E91 WriteFault\n');
    return 4;
  }
  fs.writeSync(2, error);
  return status;
}

/** Returns a function that makes an instance of the module in this folder. */
export function moduleOf(folder) {
  const file = path.join(folder, 'netflow.wasm');
  if (!fs.existsSync(file)) throw new Error(`${file} is missing; scripts/web makes it`);
  const compiled = new WebAssembly.Module(fs.readFileSync(file));
  return () => new Instance(compiled);
}

function main(words) {
  if (words.includes('--help') || words[0] === '-h') return written({ status: 0, output: Buffer.from(HELP), error: '' });
  const folder = path.dirname(fs.realpathSync(fileURLToPath(import.meta.url)));
  if (words[0] === '--version') return written({ status: 0, output: Buffer.from(`netflow ${VERSION}\n`), error: '' });
  let instantiate;
  try {
    instantiate = moduleOf(folder);
  } catch (error) {
    return written(rejectedLine(4, `netflow: ${error.message}`));
  }
  return written(run(words, instantiate));
}

if (process.argv[1] && fs.realpathSync(process.argv[1]) === fs.realpathSync(fileURLToPath(import.meta.url))) process.exitCode = main(process.argv.slice(2));
