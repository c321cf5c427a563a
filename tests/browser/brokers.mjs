// Tests the packets of MQTT, and what a member makes of a broker that is slow, gone or refuses, without one.
import { Broker, Packets, nameAt, packet } from '../../web/member/transports.js';
import { check, fault } from '../check.mjs';

/** The packets that come out of bytes that come in parts of one size. */
function parted(bytes, size) {
  const packets = new Packets(), found = [];
  for (let at = 0; at < bytes.length; at += size) {
    packets.add(bytes.subarray(at, at + size));
    for (let it = packets.next(); it; it = packets.next()) found.push([it.kind, it.body.length]);
  }
  return found;
}

export function testPackets() {
  check('a packet without a body', [...packet(0xc0)], [0xc0, 0]);
  check('lengths of one and two bytes', [[...packet(0x30, new Uint8Array(127)).subarray(0, 2)], [...packet(0x30, new Uint8Array(200)).subarray(0, 3)]], [[0x30, 127], [0x30, 200, 1]]);
  const parts = [packet(0x20, [0, 0]), packet(0x30, new Uint8Array(70_000)), packet(0xd0), packet(0x30, [1], [2, 3])];
  const bytes = new Uint8Array(Buffer.concat(parts)), wanted = [[0x20, 2], [0x30, 70_000], [0xd0, 0], [0x30, 3]];
  for (const size of [1, 7, 4_096, bytes.length]) check(`packets in parts of ${size}`, parted(bytes, size), wanted);
  check('a packet that is too long', fault(() => parted(new Uint8Array([0x30, 255, 255, 255, 127]), 5)), 'a packet that is too long');
  check('a length that does not end', fault(() => parted(new Uint8Array([0x30, 128, 128, 128, 128, 128]), 6)), 'a packet that is too long');
}

/** A socket that remembers what is sent, and says what a test has it say. */
class Socket {
  static OPEN = 1;
  static all = [];

  constructor(address) {
    Object.assign(this, { address, readyState: 0, bufferedAmount: 0, sent: [], isClosed: false });
    Socket.all.push(this);
  }

  send(bytes) {
    this.sent.push([...bytes]);
  }

  close() {
    this.isClosed = true;
  }

  open() {
    this.readyState = 1;
    this.onopen();
  }

  say(...parts) {
    this.onmessage?.({ data: packet(...parts).buffer });
  }

  /** It carries from now on. */
  carry() {
    this.open();
    this.say(...CONNACK);
    this.say(...SUBACK);
  }
}

const topic = (words) => [0, words.length, ...Buffer.from(words)];
const CONNACK = [0x20, [0, 0]], SUBACK = [0x90, [0, 1, 0]];

/** A broker whose connections are sockets of this test, as far as it is subscribed. */
function begun(taken, back = () => {}) {
  Socket.all = [];
  const take = (bytes, { place, owner }) => taken.push([[...bytes], place, owner]);
  const broker = new Broker('ws://ann:word@host/mqtt', 'maths', 'ann', new Uint8Array([87, 71]), take, back), [socket] = Socket.all;
  socket.carry();
  return { broker, socket };
}

function testCarrying() {
  const taken = [], { broker, socket } = begun(taken);
  const text = (words) => [0, words.length, ...Buffer.from(words)];
  check('it comes with a will, a name and a password', socket.sent[0],
    [...packet(0x10, text('MQTT'), [4, 0xc6, 0, 60], text(broker.client), text('wb/maths/ann'), [0, 2, 87, 71], text('ann'), text('word'))]);
  check('names at a broker', [nameAt('ws://a%20b:c@host/', 7), /^7-[0-9a-z]+$/.test(nameAt('ws://host/', 7))], ['a b', true]);
  check('it carries', [broker.state, broker.own, socket.sent.length], ['', 'wb/maths/ann', 2]);
  broker.send(new Uint8Array([1, 2, 3]));
  check('a datagram is published', socket.sent[2], [...packet(0x30, topic('wb/maths/ann'), [1, 2, 3])]);
  socket.say(0x30, topic('wb/maths/ann'), [1, 2, 3]);
  socket.say(0x30, topic('wb/maths/ann'), [4]);
  socket.say(0x30, topic('wb/maths/bob'), [1, 2, 3]);
  socket.say(0x31, topic('wb/maths/bob'), [5]);
  for (const name of ['', '\x1b[2Jeve', '\u202eeve', 'e\u2028ve', 'e\u00a0ve', 'e\u3164ve', 'e\u2800ve', 'b'.repeat(129)]) {
    const bytes = Buffer.from(`wb/maths/${name}`);
    socket.say(0x30, [bytes.length >> 8, bytes.length & 255], bytes, [6]);
  }
  check('what is ours is not taken, another device of our name is, and nothing that was kept, or under a name that nobody can be shown', taken, [[[4], 'wb/maths/ann', 'ann'], [[1, 2, 3], 'wb/maths/bob', 'bob']]);
  check('a will is of who tells its own name', [broker.goneBy('bob', { place: 'wb/maths/bob', owner: 'bob' })?.owner, broker.goneBy('bob', { place: 'wb/maths/eve', owner: 'eve' })], ['bob', null]);
  broker.end();
}

function testSilence() {
  let times = 0;
  const { broker, socket } = begun([], () => { times += 1; });
  broker.sign();
  check('a sign of life', socket.sent.at(-1), [0xc0, 0]);
  broker.heardAt -= 26_000;
  broker.sign();
  check('a broker that says nothing for long is gone, though its connection stands', [broker.state, socket.isClosed], ['the broker does not answer', true]);
  broker.send(new Uint8Array([9]));
  check('nothing is sent to it', socket.sent.at(-1), [0xc0, 0]);
  broker.open();
  check('it is told until a new connection carries', broker.state, 'the broker does not answer');
  Socket.all.at(-1).carry();
  check('and then no more, and that it is back is told once', [broker.state, times], ['', 1]);
  Socket.all.at(-1).say(...CONNACK);
  Socket.all.at(-1).say(...SUBACK);
  check('nor where it answers twice', times, 1);
  broker.end();
}

function testRefusals() {
  Socket.all = [];
  const broker = new Broker('ws://host/mqtt', 'maths', nameAt('ws://host/mqtt', 7), new Uint8Array(0), () => {}, () => {}), [socket] = Socket.all;
  check('nothing is carried yet', broker.state, 'connecting to the broker');
  broker.openedAt -= 26_000;
  broker.sign();
  check('a connection that does not come', [broker.state, socket.isClosed], ['the broker does not answer', true]);
  for (const [name, said, state] of [['a refusal', [[0x20, [0, 5]]], 'refused by the broker: it does not allow it'], ['a session that we may not hear', [CONNACK, [0x90, [0, 1, 0x80]]],
    'refused by the broker: it does not let us hear this session']]) {
    broker.open();
    const another = Socket.all.at(-1);
    another.open();
    for (const parts of said) another.say(...parts);
    check(`${name} is told, and tried again`, [broker.state, another.isClosed, broker.socket], [state, true, null]);
  }
  broker.end();
}

/** What no broker sends, to one that carries. */
const SPOILT = { 'a length that does not end': new Uint8Array(40).fill(255).buffer, 'a text': '1e9', 'a packet of clients': packet(0xc0).buffer,
  'an answer that is cut off': packet(0x90, [0]).buffer, 'a topic that is cut off': packet(0x30, [0, 9, 1]).buffer, 'two faults at once': Buffer.concat([packet(0x20, [0, 5]), packet(0x00)]) };

/** Runs what waits for a time, at once. */
function withTimers(act) {
  const before = globalThis.setTimeout, pauses = [], calls = [];
  globalThis.setTimeout = (call, pause) => {
    calls.push(call);
    pauses.push(pause);
  };
  try {
    act(() => calls.splice(0).forEach((call) => call()), pauses);
  } finally {
    globalThis.setTimeout = before;
  }
}

function testSpoilt() {
  for (const [name, data] of Object.entries(SPOILT)) {
    withTimers((pass, pauses) => {
      let times = 0;
      const { broker, socket } = begun([], () => { times += 1; });
      socket.onmessage({ data: data instanceof Buffer ? new Uint8Array(data).buffer : data });
      check(`${name} ends a connection, and one try follows`, [broker.socket, socket.isClosed, pauses.length], [null, true, 1]);
      pass();
      Socket.all.at(-1).carry();
      check('which carries', [Socket.all.length, broker.state, times], [2, '', 1]);
      broker.end();
    });
  }
}

function testPauses() {
  withTimers((pass, pauses) => {
    const { broker } = begun([]);
    for (let i = 0; i < 9; i += 1) {
      const { onclose, onerror } = Socket.all.at(-1);
      onerror();
      onclose();
      pass();
      Socket.all.at(-1).carry();
    }
    check('where connections carry and break off, the pauses grow', pauses.map((pause, i) => pause >= 250 * 2 ** Math.min(i, 6) - 2_000 && pause <= Math.min(30_000, 500 * 2 ** i)), Array(9).fill(true));
    Socket.all.at(-1).say(0xd0);
    Socket.all.at(-1).onclose();
    check('and where one has carried for a while, the next try comes soon', pauses.at(-1) <= 500, true);
    globalThis.WebSocket = class { constructor() { throw new Error('not now'); } };
    pass();
    globalThis.WebSocket = Socket;
    pass();
    Socket.all.at(-1).carry();
    check('a connection that can\u2019t be begun is tried again', broker.state, '');
    broker.end();
  });
}

/** A broker that says something again and again, but does not let us carry; and one that is silent in the midst of a packet. */
function testUseless() {
  for (const [name, begin, said] of [['that only answers signs', (socket) => socket.open(), packet(0xd0)], ['that stops in a packet', (socket) => socket.carry(), new Uint8Array([0x30, 200, 1, 0])]]) {
    Socket.all = [];
    const broker = new Broker('ws://host/mqtt', 'maths', 'ann', new Uint8Array(0), () => {}, () => {}), [socket] = Socket.all;
    begin(socket);
    broker.openedAt -= 26_000;
    broker.heardAt -= 26_000;
    socket.onmessage({ data: said.buffer });
    broker.sign();
    check(`a broker ${name} is given up`, [broker.state, socket.isClosed], ['the broker does not answer', true]);
    broker.end();
  }
}

export function testBrokers() {
  const before = globalThis.WebSocket;
  globalThis.WebSocket = Socket;
  for (const test of [testCarrying, testSilence, testRefusals, testSpoilt, testPauses, testUseless]) test();
  globalThis.WebSocket = before;
}
