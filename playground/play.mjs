// Runs commands with the module of a page, as the page's worker does: node play.mjs PAGE. On standard input each line is [words, input, files], on standard
// output each is [status, output, errors]; all but the status and the files' names are in base64. A folder is null. A status that is no number says why the module broke off.
import { readFileSync } from 'node:fs';
import { createInterface } from 'node:readline';
import { gunzipSync } from 'node:zlib';

const page = readFileSync(process.argv[2], 'utf8');
const part = (id) => new RegExp(`<script[^>]* id="${id}">([^]*?)</script>`).exec(page)[1];
const runCommand = new Function(`let onmessage; ${part('worker')}; return runCommand;`)();
const module = new WebAssembly.Module(gunzipSync(Buffer.from(part('module'), 'base64')));

for await (const line of createInterface({ input: process.stdin })) {
  const [words, input, files] = JSON.parse(line), bytes = (it) => Buffer.from(it, 'base64');
  const folder = Object.fromEntries(Object.entries(files).map(([name, it]) => [name, it === null ? null : new Uint8Array(bytes(it))]));
  const { status, trap, out, err } = runCommand(module, words.map(bytes), bytes(input), folder);
  console.log(JSON.stringify([trap ?? status, Buffer.from(out).toString('base64'), Buffer.from(err).toString('base64')]));
}
