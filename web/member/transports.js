/** What carries datagrams between members: the tabs of one browser, or a topic of an MQTT broker. They may lose, repeat and
 * reorder them, so nothing is sent twice here. */
import { HIDDEN } from '../../live/ui/unseen.js';

/** @typedef {import('./origins.js').Origin} Origin */

/** Is given the bytes that come from others, and from where.
 * @typedef {(bytes: Uint8Array, origin: Origin) => void} Take */

/** What a member needs of a transport. Each is given, as it begins, what takes the bytes.
 * @typedef {object} Transport
 * @property {(bytes: Uint8Array) => void} send   to all others
 * @property {() => void} end
 * @property {string | null} here   the owner of our own origin, if the network keeps it
 * @property {number | null} strangers   how many drawops of strangers a member takes; null for as many as it likes
 * @property {(told: string, origin: Origin) => Origin | null} goneBy   who is gone by what a last will tells that came from an origin
 * @property {string} where   where it is, for people
 * @property {string} state   empty while it carries, and else what is the matter */

/** A tab does not say which one it is, so all of them are one origin. */
const TABS = { place: '', owner: null };

/** The tabs of one browser that have this page open, by a channel of the browser's own. */
export class Tabs {
  /** @param {string} session @param {Take} take */
  constructor(session, take) {
    this.channel = new BroadcastChannel(`wb ${session}`);
    this.channel.onmessage = ({ data }) => { if (data instanceof Uint8Array) take(data, TABS); };
    this.here = null;
    this.strangers = null;
    this.where = `the tabs of this browser, session ${session}`;
    this.state = '';
  }

  /** @param {Uint8Array} bytes */
  send(bytes) {
    this.channel.postMessage(bytes);
  }

  /** No tab has a last will. */
  goneBy() {
    return null;
  }

  end() {
    this.channel.close();
  }
}

/** Kinds of packets of MQTT 3.1.1, each with its flags. */
const CONNECT = 0x10, CONNACK = 0x20, PUBLISH = 0x30, SUBSCRIBE = 0x82, SUBACK = 0x90, PINGREQ = 0xc0, PINGRESP = 0xd0;

/** Bytes of the answers to `CONNECT` and to `SUBSCRIBE`, as they are asked for here. */
const CONNACK_BYTES = 2, SUBACK_BYTES = 3;

/** How a member comes: without what the broker kept of it, with a last will, a name, and a password. */
const WITH_WILL = 6, WITH_NAME = 0x80, WITH_PASSWORD = 0x40;

/** Seconds between two signs of life, as the broker learns. */
const KEEP_ALIVE = 60;

/** Milliseconds between two signs of life of ours; and of the broker's silence after which it is taken for gone, since it answers each. A
 * connection that does not carry after as long is given up too. */
const BEAT = 10_000, SILENCE = 25_000;

/** Datagrams of ours that are told apart when the broker brings them back. */
const MOST_RECENT = 256;

/** Milliseconds from a loss to the next try, at most: the first and the greatest. */
const FIRST_PAUSE = 500, MOST_PAUSE = 30_000;

/** Bytes that may wait for the network, and the bytes of the greatest packet that is taken. */
const MOST_WAITING = 1 << 20, MOST_PACKET = 1 << 18;

/** Letters of a name at a broker that is heeded, and spaces that none has. */
const MOST_NAME = 128, NO_SPACE = /(?! )\p{Z}/u;

/** What people see of a broker that is gone, or that sends what no broker should. */
const GONE = 'the broker does not answer';

/** Why a broker refuses, by the number that it gives. */
const REFUSALS = ['', 'it knows no MQTT 3.1.1', 'it does not take this name', 'it is not available', 'the name or the password is wrong', 'it does not allow it'];

const encoder = new TextEncoder(), decoder = new TextDecoder(), latin = new TextDecoder('latin1');

/** Whether people may be shown a name.
 * @param {string} name */
const isName = (name) => name !== '' && [...name].length <= MOST_NAME && !NO_SPACE.test(name) && !HIDDEN.test(name);

/** A text of MQTT: its length in two bytes, and its bytes.
 * @param {string} words @returns {number[]} */
function text(words) {
  const bytes = encoder.encode(words);
  return [bytes.length >> 8, bytes.length & 255, ...bytes];
}

/** A packet: its kind, its length by seven bits a byte, and its body.
 * @param {number} kind @param {ArrayLike<number>[]} parts */
export function packet(kind, ...parts) {
  const size = parts.reduce((sum, part) => sum + part.length, 0), head = [kind];
  for (let left = size, first = true; first || left; left >>>= 7, first = false) head.push(left > 127 ? (left & 127) | 128 : left);
  const made = new Uint8Array(head.length + size);
  let at = 0;
  for (const part of [head, ...parts]) {
    made.set(part, at);
    at += part.length;
  }
  return made;
}

/** The packets of a stream of bytes, which come in parts of any size. */
export class Packets {
  constructor() {
    this.kept = new Uint8Array(0);
  }

  /** @param {Uint8Array} bytes */
  add(bytes) {
    const all = new Uint8Array(this.kept.length + bytes.length);
    all.set(this.kept);
    all.set(bytes, this.kept.length);
    this.kept = all;
  }

  /** The next whole packet, its kind and its body, if there is one. RangeError if it is longer than any that is taken. */
  next() {
    let size = 0, at = 1;
    for (let shift = 0, more = true; more; shift += 7, at += 1) {
      if (at >= this.kept.length) return null;
      size |= (this.kept[at] & 127) << shift;
      more = this.kept[at] > 127;
      if (size > MOST_PACKET || shift > 21) throw new RangeError('a packet that is too long');
    }
    if (this.kept.length < at + size) return null;
    const found = { kind: this.kept[0], body: this.kept.slice(at, at + size) };
    this.kept = this.kept.slice(at + size);
    return found;
  }
}

/** The name under which a member speaks at a broker: the one that the broker knows, or one that nobody else has.
 * @param {string} address @param {number} me */
export function nameAt(address, me) {
  return decodeURIComponent(new URL(address).username) || `${me}-${crypto.getRandomValues(new Uint32Array(1))[0].toString(36)}`;
}

/** A broker of MQTT 3.1.1 over WebSockets, at most once (QoS 0), which is what a datagram is. What it brings back of ours is known by its
 * topic and its bytes: where the broker gives each name one topic, two devices of one name have the same. */
export class Broker {
  /** @param {string} address with a name and a password where the broker asks for them
   * @param {string} session @param {string} name under which this member speaks
   * @param {Uint8Array} will what the broker tells the others when this member is gone
   * @param {Take} take @param {() => void} back is called where it was gone and carries again
   * @param {() => Promise<Uint8Array>} [nextWill] makes another will for each connection after the first */
  constructor(address, session, name, will, take, back, nextWill = async () => will) {
    const url = new URL(address);
    this.login = [url.username, url.password].map(decodeURIComponent);
    [url.username, url.password, url.hash] = ['', '', ''];
    this.address = url.href;
    this.client = `wb-${crypto.getRandomValues(new BigUint64Array(1))[0].toString(36)}`;
    this.session = `wb/${session}/`;
    this.own = this.session + name;
    // a broker that asks for a name lets each write under its own alone
    this.here = this.login[0] ? name : null;
    this.strangers = null;
    this.will = will;
    this.nextWill = nextWill;
    this.take = take;
    this.back = back;
    this.where = `the broker ${url.host}, session ${session}`;
    this.pause = FIRST_PAUSE;
    this.isEnded = false;
    this.hasCarried = false;
    this.state = '';
    /** Datagrams of ours that were sent last.
     * @type {Set<string>} */
    this.recent = new Set();
    this.openedAt = this.heardAt = performance.now();
    /** The connection, where there is one.
     * @type {WebSocket | null} */
    this.socket = null;
    this.open();
    this.beat = setInterval(() => this.sign(), BEAT);
  }

  /** Opens a connection, which asks for the session's topics. */
  open() {
    const socket = new WebSocket(this.address, 'mqtt'), packets = new Packets();
    if (!this.state) this.state = 'connecting to the broker';
    this.openedAt = this.heardAt = performance.now();
    this.socket = socket;
    socket.binaryType = 'arraybuffer';
    socket.onopen = () => this.put(this.greeting());
    socket.onmessage = ({ data }) => this.hear(packets, data);
    // not every engine tells the end of what never began
    socket.onclose = socket.onerror = () => this.lose(GONE);
  }

  /** The packet that begins: who connects, and what the broker says when it is gone. */
  greeting() {
    const { will } = this;
    this.nextWill().then((next) => { this.will = next; });
    const [name, password] = this.login, flags = WITH_WILL | (name ? WITH_NAME : 0) | (name && password ? WITH_PASSWORD : 0);
    const login = [name, password].filter((words, i) => words && (!i || name)).map(text);
    return packet(CONNECT, text('MQTT'), [4, flags, 0, KEEP_ALIVE], text(this.client), text(this.own), [will.length >> 8, will.length & 255], will, ...login);
  }

  /** Gives a sign of life. A broker that has given none for long is gone, though its connection may seem to stand; and one that does not let
   * us carry is given up, whatever else it sends. */
  sign() {
    const since = this.state ? this.openedAt : this.heardAt;
    if (performance.now() - since < SILENCE) this.put(packet(PINGREQ));
    else this.lose(GONE);
  }

  /** The connection, where there is one, was lost or is given up: another try follows.
   * @param {string} why */
  lose(why) {
    const { socket } = this;
    if (!socket) return;
    [socket.onopen, socket.onmessage, socket.onclose, socket.onerror] = [null, null, null, null];
    this.socket = null;
    socket.close();
    if (this.isEnded) return;
    this.state = why;
    this.tryLater();
  }

  /** Another try, after a pause that grows. */
  tryLater() {
    setTimeout(() => {
      if (this.isEnded) return;
      try {
        this.open();
      } catch {
        this.tryLater();
      }
    }, this.pause * (0.5 + Math.random() / 2));
    this.pause = Math.min(2 * this.pause, MOST_PAUSE);
  }

  /** Takes what the broker sends. If that is not MQTT, nothing after it is believed.
   * @param {Packets} packets @param {unknown} data */
  hear(packets, data) {
    const { socket } = this;
    try {
      if (!(data instanceof ArrayBuffer)) throw new RangeError('a text');
      packets.add(new Uint8Array(data));
      for (let found = packets.next(); found && this.socket === socket; found = packets.next()) {
        this.heardAt = performance.now();
        this.answer(found);
      }
    } catch {
      this.lose(GONE);
    }
  }

  /** RangeError of a packet that no broker sends.
   * @param {{ kind: number, body: Uint8Array }} packet */
  answer({ kind, body }) {
    if (kind === CONNACK && body.length === CONNACK_BYTES) this.begin(body[1]);
    else if (kind === SUBACK && body.length === SUBACK_BYTES) this.carry(body[2]);
    else if (kind === PINGRESP && !body.length) this.settle();
    else if ((kind & 0xf0) === PUBLISH) this.publish(kind, body);
    else throw new RangeError('a packet of a kind that no broker sends');
  }

  /** The broker takes us, where it gives no reason why not.
   * @param {number} reason */
  begin(reason) {
    if (reason) this.lose(`refused by the broker: ${REFUSALS[reason] ?? reason}`);
    else this.put(packet(SUBSCRIBE, [0, 1], text(`${this.session}+`), [0]));
  }

  /** From now on it carries, for the first time or again, where the broker lets us hear the session.
   * @param {number} quality */
  carry(quality) {
    if (quality > 2) this.lose('refused by the broker: it does not let us hear this session');
    else if (this.state) {
      this.state = '';
      if (this.hasCarried) this.back();
      this.hasCarried = true;
    }
  }

  /** A connection that has carried for a while: the next try comes soon. Of one that breaks off each time, the pauses grow. */
  settle() {
    if (!this.state) this.pause = FIRST_PAUSE;
  }

  /** Somebody has published something under the session's topics.
   * @param {number} kind @param {Uint8Array} body */
  publish(kind, body) {
    const behind = 2 + ((body[0] << 8) | body[1]), topic = decoder.decode(body.subarray(2, behind)), quality = kind & 6;
    if (!(behind <= body.length)) throw new RangeError('a topic that is cut off');
    // what a broker keeps for those who come later is not a datagram
    if (kind & 1 || !isName(topic.slice(topic.lastIndexOf('/') + 1))) return;
    const bytes = body.slice(behind + (quality ? 2 : 0));
    if (topic !== this.own || !this.recent.has(latin.decode(bytes))) this.take(bytes, this.originOf(topic));
  }

  /** @param {string} topic @returns {Origin} */
  originOf(topic) {
    return { place: topic, owner: this.here === null ? null : topic.slice(this.session.length) };
  }

  /** A will tells the name under which it comes.
   * @param {string} name @param {Origin} origin */
  goneBy(name, origin) {
    return origin.place === this.session + name ? origin : null;
  }

  /** Hands bytes to the network, where it carries and not too many wait.
   * @param {Uint8Array} bytes */
  put(bytes) {
    const { socket } = this;
    if (socket && socket.readyState === WebSocket.OPEN && socket.bufferedAmount < MOST_WAITING) socket.send(bytes);
  }

  /** @param {Uint8Array} bytes */
  send(bytes) {
    if (this.state) return;
    this.recent.add(latin.decode(bytes));
    if (this.recent.size > MOST_RECENT) this.recent.delete([...this.recent][0]);
    this.put(packet(PUBLISH, text(this.own), bytes));
  }

  /** Without the packet that says goodbye, so that the broker tells the others. */
  end() {
    this.isEnded = true;
    clearInterval(this.beat);
    this.lose('');
  }
}
