// lines.mjs FOLDER TURNS: what calls of the page's module cost, in microseconds of the clock, the least of several turns. Standard input has the
// lines, of which the first opens a board and each other draws. What they send comes to another member, by lines and by bytes.
import { readFileSync } from 'node:fs';
import { join } from 'node:path';
import { isWide } from '../javascript/host.js';
import { load } from '../javascript/node.js';

const [folder, turns] = process.argv.slice(2), lines = readFileSync(0, 'latin1').split('\n').slice(0, -1), name = isWide() ? 'wb.wasm' : 'wb-any.wasm';
const program = await load(join(folder, name), isWide()), [board, ...said] = lines;
const hexOf = (bytes) => Buffer.from(bytes).toString('hex');

/** A host that has these lines. */
async function hostOf(...told) {
  const host = await program.start();
  for (const line of told) host.ask(line);
  return host;
}

async function least(open, hand, items) {
  const found = [];
  for (let turn = 0; turn < Number(turns); turn += 1) {
    const host = await open(), began = performance.now();
    items.forEach((item, place) => hand(host, item, place));
    found.push(((performance.now() - began) * 1_000) / items.length);
  }
  return Math.min(...found).toFixed(2);
}

const source = await hostOf(board), sent = said.map((line) => source.ask(line).sent()[0]), hears = () => hostOf('board 2 65535 1 43', 'keep 4000 0');
console.log(`| Node, the module \`${name}\`, \`BareHost.ask\` | ${await least(() => hostOf(board), (host, line) => host.ask(line), said)} |`);
console.log(`| the same, a drawop that comes in, by its line \`came\` | ${await least(hears, (host, bytes, place) => host.ask(`came ${place} ${hexOf(bytes)}`), sent)} |`);
console.log(`| the same, by bytes: \`BareHost.came\` | ${await least(hears, (host, bytes, place) => host.came(place, bytes), sent)} |`);
