// three.mjs: three members type into one document while each loses a third of what comes in. One ends, misses what the others type, and goes on from its
// record with an empty document. They end with one text, whose digest each prints.
import { createHash } from 'node:crypto';
import { mkdtempSync, rmSync } from 'node:fs';
import { tmpdir } from 'node:os';
import { join } from 'node:path';
import * as Y from 'yjs';
import { Member, load } from 'wb/node.js';
import { Provider } from './provider.mjs';

const WORDS = ['Members of a board keep a copy of it each. ', 'What is lost is asked for by all, ', 'and one of them repairs it, whoever has it. '];

const program = await load(), folder = mkdtempSync(join(tmpdir(), 'wb-three-')), here = { address: '127.0.0.1', port: 0 };
const members = [], docs = [];

/** Opens a member, which goes on from its record, with an empty document. */
async function open(at, listen) {
  const member = await Member.open(at + 1, { program, bind: here, record: join(folder, `${at + 1}.record`), listen });
  const take = member.take.bind(member);
  member.take = (datagram, place) => {
    if (Math.random() >= 1 / 3) take(datagram, place);
  };
  [members[at], docs[at]] = [member, new Y.Doc()];
  for (const one of members) one.transport.to = members.filter((other) => other !== one && !other.isOver).map((other) => other.address());
  return new Provider(docs[at], member, '1/1');
}

const type = (at, text) => docs[at].getText().insert(Math.floor(docs[at].getText().length / 2), text);
const texts = () => docs.map((doc) => doc.getText().toString());

/** Waits until all of these documents are equal, of this many letters. */
async function equal(which, letters) {
  for (const end = Date.now() + 120_000; Date.now() < end;) {
    const found = which.map((at) => texts()[at]);
    if (found.every((text) => text === found[0] && text.length === letters)) return;
    await new Promise((done) => setTimeout(done, 50));
  }
  throw new Error('they did not come to one text');
}

try {
  for (const at of [0, 1, 2]) await open(at, 0); // numbers that never drew
  let letters = 0;
  for (const at of [0, 1, 2, 2, 1, 0]) {
    type(at, WORDS[at]);
    letters += WORDS[at].length;
    await new Promise((done) => setTimeout(done, 150));
  }
  await equal([0, 1, 2], letters);
  members[0].end();
  type(1, 'This the first one misses. ');
  letters += 'This the first one misses. '.length;
  await equal([1, 2], letters);
  await open(0);
  await equal([0, 1, 2], letters);
  type(0, WORDS[0]);
  await equal([0, 1, 2], letters + WORDS[0].length);
  for (const text of texts()) console.log(createHash('sha256').update(text).digest('hex'));
} finally {
  for (const member of members) member.end();
  rmSync(folder, { recursive: true });
}
