// The package over the module that WB_MODULE names.
import { createHash } from 'node:crypto';
import { appendFileSync, mkdtempSync, readFileSync, rmSync, writeFileSync } from 'node:fs';
import { tmpdir } from 'node:os';
import { join } from 'node:path';
import test from 'node:test';
import { Host, HostEnded, Refused, drawingIn } from 'wb';
import { Key, Member, RecordedHost, load } from 'wb/node.js';
import { check } from '../check.mjs';

const LINE = 'line 0 0 4 0 *';
const program = await load(process.env.WB_MODULE);

/** The name of the fault that a call ends with. */
async function raised(call) {
  try {
    await call();
  } catch (fault) {
    return fault.constructor.name;
  }
  return 'nothing';
}

/** Why a call is refused. */
async function refused(call) {
  try {
    await call();
  } catch (fault) {
    return fault.fault ?? `${fault}`;
  }
  return 'nothing';
}

/** What a host that is not judged answers. */
const brief = ({ send, due, became, refused }) => ({ send, due, became, refused });

/** Members at addresses of this machine, each of which sends to the others, by the texts of their keys. */
async function membersOf(keys) {
  const bind = { address: '127.0.0.1', port: 0 }, members = await Promise.all(keys.map((key, at) => Member.open(at + 1, { program, listen: 0, bind, key })));
  for (const member of members) member.carrier.to = members.filter((other) => other !== member).map((other) => other.address());
  return members;
}

for (const kind of ['sealed', 'tagged']) {
  const vectors = JSON.parse(readFileSync(join(process.env.WB_VECTORS, `${kind}.json`), 'utf8')), bytes = (digits) => Uint8Array.from(Buffer.from(digits, 'hex'));
  test(`${kind}: what opens by a key, once, and what is dropped`, () => {
    const key = new Key(vectors.key, vectors.session), sender = BigInt(`0x${vectors.sender}`);
    for (const it of vectors.datagrams) {
      const [opened, again] = [1, 2].map(() => key.open(bytes(it[kind])));
      check(it.what, [[...opened.datagram], opened.sender === sender, again], [[...bytes(it.datagram)], true, null]);
    }
    for (const it of vectors.dropped) check(it.why, new Key(vectors.key, vectors.session).open(bytes(it[kind])), null);
  });
  test(`${kind}: members of one key show one page, and another is not heard`, async () => {
    const members = await membersOf([vectors.key, vectors.key, `${vectors.key.slice(0, -2)}BA`]), [one, two] = members;
    for (const [at, member] of members.entries()) await member.draw('1/1', `line 0 ${at} 4 ${at} *`);
    const views = async () => Promise.all(members.map(async ({ host }) => (await host.view('1/1')).length));
    for (const end = Date.now() + 60_000; (await views())[1] < 2 && Date.now() < end;) await new Promise((done) => setTimeout(done, 20));
    check('as many drawings', await views(), [2, 2, 1]);
    check('and the same', `${(await one.host.view('1/1')).map(({ source, operation }) => [source, operation])}`, `${(await two.host.view('1/1')).map(({ source, operation }) => [source, operation])}`);
    for (const member of members) member.end();
  });
}

test('beyond this machine a member has a key, or is open', async () => {
  const group = { address: '239.192.17.1', port: 8_017 };
  for (const words of [{ group }, {}, { to: [{ address: '192.0.2.1', port: 9 }] }, { group, key: 'A'.repeat(43), open: true }]) {
    check('neither, or both', await raised(() => Member.open(1, { program, ...words })), 'RangeError');
  }
});

test('two hosts: what one draws is shown by the other, and what is refused changes nothing', async () => {
  const one = await Host.open(1, { program, seed: 42n, listen: 0 }), two = await Host.open(2, { program, seed: 43n, listen: 1000 });
  check('a host has something to do', one.due, 34_890);
  const drawn = await one.add(1000, 5, '1/1', LINE);
  check('a drawing is sent', drawn.send.map((datagram) => datagram.length), [42]);
  check('one that comes in is new', (await two.came(500, drawn.send[0])).became, 'new');
  check('and then known', (await two.came(600, drawn.send[0])).became, 'again');
  check('what is new is told with its name, its page and what it draws', [drawn.drawop, drawingIn(drawn.drawop.operation)],
    [{ source: 1, page: '1/1', number: 1, time: 5n, operation: LINE }, { kind: 'line', x0: 0, y0: 0, x1: 4, y1: 0, glyph: '*' }]);
  check('it is shown', await two.show('1/1', 6, 1), ['***** ']);
  check('and told', await two.view('1/1'), [{ source: 1, page: '1/1', number: 1, time: 5n, operation: LINE }]);
  const { due } = two;
  check('what is no datagram is refused, and what is due is as it was', brief(await two.came(700, new Uint8Array([87, 66]))), { send: [], due, became: null, refused: 'datagram 1' });
  check('so is a drawing while it listens', await refused(() => two.add(800, 5, '1/1', 'line 0 0 4 0 +')), 'listening');
  check('after which it is known too', two.due, due);
  check('time goes on', await raised(() => two.tick(10)), 'Refused');
  check('questions', [await two.report('1/1'), await two.gaps('1/1'), await two.pages(), await two.known(), await two.nextNumber('1/1'), await two.version()], [[[1, 1]], [], ['1/1'], ['1/1'], 1, 1]);
  const said = await two.add(2000, 6, '1/1', 'text 0 0 "ok 7"');
  check('a row that looks like a closing line is a row', (await two.show('1/1', 4, 2))[0], 'ok 7');
  const hashed = (...datagrams) => datagrams.reduce((hash, bytes) => hash.update(bytes), createHash('sha256')).digest('hex'), digest = (host, page) => Buffer.from(host.digest(page)).toString('hex');
  check('a digest is of what is held of the page', [digest(one, '1/1'), digest(two, '1/1'), digest(two, '1/2')], [hashed(drawn.send[0]), hashed(drawn.send[0], said.send.at(-1)), hashed()]);
  const many = await Promise.all([1, 2, 3].map((at) => one.add(2000 + at, 5 + at, '1/1', `line 0 ${at} 4 ${at} *`)));
  check('calls that overlap are done in their order', many.map((answer) => answer.send.length), [1, 1, 1]);
  one.end();
  two.end();
});

test('what is refused', async () => {
  const host = await Host.open(2, { program, listen: 0 });
  check('a letter of no drawing', await refused(() => host.add(1, 5, '1/1', 'text 0 0 "\u{1f600}"')), 'word 7: text byte outside space to ~');
  check('a line with a line feed in it', await raised(() => host.add(3000, 7, '1/1', `${LINE}\n`)), 'Refused');
  check('what is aimed at itself', await refused(() => host.add(2001, 6, '1/1', { kind: 'delete', source: 2, number: 1 })), 'word 6: target is the drawop itself');
  check('questions that are none', [await refused(() => host.show('1/1', 0, 1)), await refused(() => host.view('x')), await refused(() => host.gaps('1/4294967296'))], ['number', 'words', 'number']);
  host.end();
});

test('a full board, and a host that is gone', async () => {
  const full = await Host.open(3, { program, cells: 1, listen: 0 });
  await full.add(1, 1, '1/1', LINE);
  check('a full board', (await full.add(2, 2, '1/1', LINE)).became, 'full');
  full.end();
  check('a host that is gone is said', await raised(() => full.tick(9)), HostEnded.name);
  check('and a board that none can have', await raised(() => Host.open(3, { program, cells: 0 })), Refused.name);
});

test('a host listens for six seconds', async () => {
  const host = await Host.open(4, { program });
  check('before and after', [await refused(() => host.add(5_999_999, 5, '1/1', LINE)), await refused(() => host.add(6_000_000, 5, '1/1', LINE))], ['listening', 'nothing']);
  host.end();
});

test('a host with a record', async (t) => {
  const folder = mkdtempSync(join(tmpdir(), 'wb-')), record = join(folder, 'record'), again = () => RecordedHost.open(7, { program, record });
  t.after(() => rmSync(folder, { recursive: true }));
  const kept = await again();
  check('a new record listens first', [kept.readyAt - kept.begun, await refused(() => kept.add(kept.begun + 1, 5, '1/1', LINE))], [6_000_000, 'listening']);
  const said = kept.add(kept.readyAt, 10 ** 15, '1/1', LINE);
  check('what it drew is in the record', [said.became, said.send.length > 0, readFileSync(record, 'latin1').endsWith(`say draw 7 1/1 1 1000000000000000 ${LINE}\n`)], ['new', true, true]);
  const theirs = said.send[said.send.length - 1].slice();
  theirs[11] = 9;
  check('what comes in is new', [kept.came(kept.readyAt + 5, theirs, 5n).became, kept.came(kept.readyAt + 6, theirs.subarray(0, 9), 5n).refused], ['new', 'dropped datagram']);
  const page = kept.view('1/1'), last = kept.readyAt + 6;
  kept.end();
  const gone = await again();
  check('it goes on where it ended', [gone.view('1/1'), gone.nextNumber('1/1'), gone.begun > last, gone.readyAt - gone.begun], [page, 2, true, 0]);
  gone.record.isBroken = true; // as by a crash
  gone.end();
  appendFileSync(record, 'say draw 7 1/1 2 1');
  const third = await again();
  check('after a crash it listens', [third.nextNumber('1/1'), third.readyAt - third.begun], [2, 6_000_000]);
  third.end();
  check('another member has its own', await refused(() => RecordedHost.open(8, { program, record })), 'it is no record of member 8');
  writeFileSync(record, 'Dear reader');
  check('what is no record stays as it is', [await refused(again), readFileSync(record, 'latin1')], ['it is no record', 'Dear reader']);
});

const hex = (bytes) => Buffer.from(bytes).toString('hex'), unhex = (digits) => new Uint8Array(Buffer.from(digits, 'hex'));
const STROKE = '57420101000000220000000700000007000000010000000200000000000000140100000000000400002b';
const OURS = '574201010000002100000001000000070000000100000001000000000000001e030001000103796573';

test('calls by bytes: the conversation of docs/HOST-LINES.md with a self-managing host', async () => {
  const bare = await program.start(), digits = (answer) => ({ ...brief(answer), send: answer.send.map(hex) });
  check('a host has no board at first', bare.came(1, unhex(STROKE)).refused, 'not kept');
  check('lines open it', ['board 1 3 1 42', 'keep 4000 1000'].map((line) => bare.ask(line).due), [null, 34_890]);
  check('nothing is added while it listens', digits(bare.add(500, unhex(OURS))), { send: [], due: 34_890, became: null, refused: 'listening' });
  check('a datagram comes in', digits(bare.came(600, unhex(STROKE))), { send: [], due: 34_890, became: 'new', refused: null });
  check('time goes on', digits(bare.tick(34_890)),
    { send: ['574201020000002000000001000000000000884a0000000700000001000100000007000000020000'], due: 59_726, became: null, refused: null });
  check('what is drawn gets our name', digits(bare.add(34_890, unhex(OURS.replace('0000000100000007', 'ffffffff00000007')))), { send: [OURS], due: 59_726, became: 'new', refused: null });
  check('and is known then', digits(bare.came(34_890, unhex(OURS))), { send: [], due: 59_726, became: 'again', refused: null });
  check('the full board', [bare.add(34_890, unhex(OURS)).became, bare.add(34_890, unhex(OURS)).became], ['new', 'full']);
  check('refusals', [bare.tick(5), bare.tick(2 ** 48), bare.add(34_890, unhex('574201040000000400000009')), bare.came(34_890, new Uint8Array(9_000))].map((answer) => answer.refused),
    ['back in time', 'number', 'no drawop', 'datagram 2']);
  check('a question has an event for each item', bare.events(3, 7, 1).events.map(({ kind, bytes }) => [kind, hex(bytes)]), [[7, '000000070000000100000001']]);
  check('what is none has none', bare.events(9, 7, 1), { events: [], refused: 'no question' });
  check('blocks and events that are long', [bare.ask('show 7 1 200 100').lines.length, bare.events(7, 7, 1, 200, 100).events[0].bytes.length], [100, 20_100]);
  check('a host that is not judged knows no origins', bare.cameFrom(34_890, { place: 5n, owner: null }, unhex(STROKE)).refused, 'not judged');
});

/** STROKE as the first drawing of its source: a judged host takes no other of a stranger. */
const FIRST = `${STROKE.slice(0, 40)}00000001${STROKE.slice(48)}`;

test('calls by bytes of a judged host', async () => {
  const bare = await program.start();
  check('lines open it', ['board 1 1024 1 42', 'judge 0 4000 0 1764000000000000 - -'].map((line) => bare.ask(line).fault), [null, null]);
  const judged = bare.cameFrom(10, { place: 5n, owner: 6n }, unhex(FIRST));
  check('it says what to record, and what it holds', [judged.records, judged.drew, judged.became, judged.dropped], [['tick 10', 'draw 7 7/1 1 20 line 0 0 4 0 +'], ['7 7/1 1'], 'new', null]);
  check('and why it drops', [FIRST, '5742'].map((given) => bare.cameFrom(11, { place: 5n, owner: null }, unhex(given)).dropped), ['again', 'datagram']);
  check('who is gone, and the time of day', [bare.gone(12, { place: 5n, owner: null }), bare.wall(13, 5_000_000), bare.wall(14, 2 ** 62)].map(({ refused }) => refused), [null, null, 'number']);
  check('what comes without its origin is refused', bare.came(14, unhex(FIRST)).refused, 'judged');
  const ours = bare.add(14, unhex(OURS));
  check('a drawing is recorded, at its own time', [ours.records, ours.send.length], [['tick 14', 'say draw 1 7/1 1 5000001 text 1 1 "yes"'], 1]);
  bare.renew();
  check('it begins anew', [bare.due(), bare.ask('pages').fault], [null, 'no board']);
  bare.memory.grow(1);
  check('the memory may grow meanwhile', bare.ask('board 2 3 1 42').fault, null);
  new DataView(bare.memory.buffer).setUint32(Number(bare.place), 0x7fff0000, true); // beyond the end of the memory
  check('one that broke off says so, and so it does from then on', [await raised(() => bare.tick(1)), await raised(() => bare.ask('pages'))], [HostEnded.name, HostEnded.name]);
});

const here = { address: '127.0.0.1', port: 0 };

/** Three members over UDP, each of which loses a third of what comes. */
async function threeMembers() {
  const members = await Promise.all([1, 2, 3].map((number) => Member.open(number, { program, bind: here, listen: 0 })));
  let state = 7;
  for (const member of members) {
    member.transport.to = members.filter((other) => other !== member).map((other) => other.address());
    const take = member.take.bind(member);
    member.take = (datagram) => {
      state = (state * 1_103_515_245 + 12_345) % 2 ** 31;
      if (state / 2 ** 31 >= 0.33) take(datagram);
    };
  }
  return members;
}

test('three members over UDP that lose a third show one page', { timeout: 60_000 }, async () => {
  const members = await threeMembers();
  check('nobody takes a port that another has', await Member.open(9, { program, bind: members[0].address(), listen: 0 }).catch((fault) => fault.code), 'EADDRINUSE');
  const whole = Promise.all(members.map((member) => new Promise((done, fail) => {
    member.on('fault', fail);
    member.on('change', async () => {
      if ((await member.host.view('1/1')).length === 12) done();
    });
  })));
  for (let at = 0; at < 12; at += 1) await members[at % 3].draw('1/1', `line 0 ${at} 9 ${at} *`);
  await whole;
  const views = await Promise.all(members.map((member) => member.host.view('1/1')));
  check('what they show', views, [views[0], views[0], views[0]]);
  members[0].host.end();
  const ended = new Promise((done) => members[0].on('fault', (fault) => done(fault.constructor.name)));
  members[0].take(new Uint8Array([87, 66]));
  members[0].inTurn((now) => members[0].host.came(now, new Uint8Array([87, 66]))).catch((fault) => members[0].breakOff(fault));
  check('a member whose host has ended says so', await ended, 'HostEnded');
  for (const member of members) member.end();
});
