// Command lines of netflow.mjs for tests, without a process for each: node command.mjs FOLDER. Reads a JSON list of words a line.
import path from 'path';
import readline from 'readline';
import { pathToFileURL } from 'url';

const folder = process.argv[2], { run, moduleOf } = await import(pathToFileURL(path.join(folder, 'netflow.mjs')));
const instantiate = moduleOf(folder);

for await (const line of readline.createInterface({ input: process.stdin })) {
  const { status, output, error } = run(JSON.parse(line), instantiate);
  console.log(JSON.stringify([status, output.toString('base64'), error]));
}
