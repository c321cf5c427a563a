// examples/yjs/provider.mjs over a document that stands for one of Yjs, and the module that WB_MODULE names.
import test from 'node:test';
import { Member, load } from 'wb/node.js';
import { Doc } from 'yjs';
import { check } from '../check.mjs';
import * as provider from './provider.mjs';

const program = await load(process.env.WB_MODULE);

/** Whether something holds, which it has time for, on a busy machine too. */
async function until(holds) {
  for (const end = Date.now() + 120_000; !holds() && Date.now() < end;) await new Promise((done) => setTimeout(done, 20));
  return holds();
}

/** Two members, each of which hears all that the other sends. */
async function two(cells) {
  const here = { address: '127.0.0.1', port: 0 };
  const members = await Promise.all([1, 2].map((number) => Member.open(number, { program, bind: here, listen: 0, cells, to: [here] })));
  for (const [at, member] of members.entries()) member.transport.send = (datagram) => setImmediate(() => members[1 - at].isOver || members[1 - at].take(datagram));
  return members;
}

test('two documents are one', async () => {
  const members = await two(65_535), docs = [new Doc(), new Doc()];
  docs[0].insert('what stood before');
  docs.forEach((doc, at) => new provider.Provider(doc, members[at], '1/1'));
  check('what stood before is sent', await until(() => docs[1].items.has('what stood before')), true);
  const before = process.cpuUsage(), long = 'x'.repeat(200_000);
  docs[0].insert(long);
  check('a long text comes whole', await until(() => docs[1].items.has(long)), true);
  const { user, system } = process.cpuUsage(before);
  check('in little time', (user + system) / 1e6 < 10, true);
  for (const member of members) member.end();
});

test('pieces are texts of the board', () => {
  check('the longest', Math.max(...provider.pieces(new Uint8Array(300_000)).map((piece) => piece.length)) <= 64, true);
});

test('a full board is told', async () => {
  const small = await two(4), told = [], last = new provider.Provider(new Doc(), small[0], '1/1');
  last.on('fault', (fault) => told.push(fault.constructor.name));
  last.doc.insert('y'.repeat(200));
  await until(() => told.length);
  last.doc.insert('z');
  check('once', told, ['BoardFull']);
  for (const member of small) member.end();
});
