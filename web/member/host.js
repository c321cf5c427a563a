/** The proved library of a host, in a module of WebAssembly: it takes datagrams as bytes, and lines, and answers each at once. */

/** The host broke off, or has no memory: its instance is thrown away. */
export class HostEnded extends Error {}

/** What a line printed, and then the next moment that is due, or why the line was refused. */
export class Block {
  /** @param {string[]} lines @param {string} close the line that closes the block */
  constructor(lines, close) {
    this.lines = lines;
    this.fault = close.startsWith('refused ') ? close.slice(8) : null;
    /** @type {number | null} */
    this.due = this.fault !== null || close === 'ok never' ? null : Number(close.slice(3));
  }

  /** What its lines say that begin with this word.
   * @param {string} word */
  said(word) {
    return this.lines.filter((line) => line.startsWith(`${word} `)).map((line) => line.slice(word.length + 1));
  }

  /** The datagrams to send. */
  sent() {
    return this.said('send').map(unhex);
  }
}

/** The bytes of hexadecimal digits.
 * @param {string} digits */
export function unhex(digits) {
  const bytes = new Uint8Array(digits.length >> 1);
  for (let at = 0; at < bytes.length; at += 1) bytes[at] = parseInt(digits.slice(2 * at, 2 * at + 2), 16);
  return bytes;
}

/** What became of a drawop that was handed in.
 * @typedef {'new' | 'again' | 'clash' | 'full'} Became */

/** An origin as a host knows it, by the numbers of its place and of its owner, if it has one.
 * @typedef {{ place: bigint, owner: bigint | null }} OriginNumbers */

/** From where a stream is to be taken, and how many numbers are missing.
 * @typedef {{ place: bigint, owner: bigint | null, lacking: bigint }} Fetch */

/** What a call came to. If it was refused, nothing has changed. Most of it a judged host alone gives: it says what to record before what is sent. */
export class Answer {
  constructor() {
    /** Why it was refused, as a line of the same meaning says it.
     * @type {string | null} */
    this.refused = null;
    /** The moment at which to call `tick` next.
     * @type {number | null} */
    this.due = null;
    /** Why a judged host dropped what came.
     * @type {string | null} */
    this.dropped = null;
    /** Lines of the record, to be kept before anything is sent.
     * @type {string[]} */
    this.records = [];
    /** Names of what a judged host holds now and did not before, each as SOURCE C/N NUMBER.
     * @type {string[]} */
    this.drew = [];
    /** Datagrams to be sent to all others.
     * @type {Uint8Array[]} */
    this.send = [];
    /** What became of the drawop that was handed in or drawn.
     * @type {Became | null} */
    this.became = null;
    /** @type {Fetch | null} */
    this.fetch = null;
    /** What people are to be warned of, in the words of a line.
     * @type {string | null} */
    this.warning = null;
  }
}

/** An event, by its kind and its bytes, as `include/wb.h` has them.
 * @typedef {{ kind: number, bytes: Uint8Array }} Event */

// the statuses of include/wb.h that are told apart here
const DONE = 0, WAITS = 1, CLOSED = 3, MEMORY = 4, NOTHING = 6, NO_DATAGRAM = 100, NO_OPERATION = 200;

/** Why a judged host drops what came, and what it warns of, by their numbers from 1 and in the words of its lines. */
const DROPS = ['datagram', 'own', 'speaks', 'crowd', 'mark', 'stranger', 'flood', 'again', 'ahead', 'full', 'share', 'pages', 'holes'];
const WARNINGS = ['speaks', 'mark', 'twin', 'full', 'share'];

/** Why a call was refused, by its status, as a line of the same meaning says it. */
const REFUSALS = /** @type {Record<number, string>} */ ({ 7: 'not kept', 8: 'number', 9: 'back in time', 10: 'listening', 11: 'ours',
  12: 'too many', 13: 'no drawop', 14: 'no question', 15: 'judged', 16: 'not judged', 17: 'twin', 18: 'full', 19: 'number' });

const FIELDS = ['sequence number 0', 'coordinate over 4095', 'glyph outside ! to ~', 'text of 0 or over 64 bytes', 'text byte outside space to ~',
  'target sequence number 0', 'target is the drawop itself'];

/** @param {number} status */
function refusalOf(status) {
  if (status > NO_OPERATION) return `word 6: ${FIELDS[status - NO_OPERATION - 1]}`;
  return status > NO_DATAGRAM ? `datagram ${status - NO_DATAGRAM}` : REFUSALS[status] ?? `status ${status}`;
}

/** What the module has besides its memory (include/wb.h); places, sizes and moments have 64 bits.
 * @typedef {object} Calls
 * @property {(size: bigint) => bigint} page_room   room in the memory, or 0
 * @property {(host: bigint) => number} wb_open
 * @property {(host: bigint, line: bigint, length: bigint, buffer: bigint, room: bigint, size: bigint) => number} wb_line
 * @property {(host: bigint, buffer: bigint, room: bigint, size: bigint) => number} wb_block
 * @property {(host: bigint, now: bigint, datagram: bigint, length: bigint) => number} wb_came
 * @property {(host: bigint, now: bigint, place: bigint, owner: bigint, hasOwner: number, datagram: bigint, length: bigint) => number} wb_came_from
 * @property {(host: bigint, now: bigint, wall: bigint) => number} wb_wall
 * @property {(host: bigint, now: bigint, place: bigint, owner: bigint, hasOwner: number) => number} wb_gone
 * @property {(host: bigint, now: bigint) => number} wb_tick
 * @property {(host: bigint, now: bigint, drawop: bigint, length: bigint) => number} wb_add
 * @property {(host: bigint, question: number, creator: number, number: number, width: number, height: number) => number} wb_ask
 * @property {(host: bigint, kind: bigint, buffer: bigint, room: bigint, size: bigint) => number} wb_event
 * @property {(host: bigint) => bigint} wb_due
 * @property {() => bigint} wb_version
 * @property {(host: bigint) => void} wb_close */

const written = new TextEncoder();
const read = new TextDecoder('latin1');
// of letters without accents, for which it is quicker
const readLetters = new TextDecoder(), FEW_LETTERS = 24;

/** The size of a host's place, and of what a call tells of an event: its kind, and 8 bytes on its size. */
const PLACE = 16, SIZE_AT = 8;

/** What each of the two buffers has at first: more than nearly all datagrams and blocks. */
const ROOM = 1 << 12;

/** A part of the memory that the page writes or reads. */
class Room {
  /** @param {Calls} calls @param {number} size */
  constructor(calls, size) {
    this.calls = calls;
    this.size = this.at = 0;
    // the same for the calls
    this.length = this.place = 0n;
    this.reach(size);
  }

  /** Makes it as large as that at least. What it was before is not given back, so it doubles.
   * @param {number} size */
  reach(size) {
    if (size <= this.size) return;
    this.size = Math.max(size, 2 * this.size);
    [this.length, this.place] = [BigInt(this.size), this.calls.page_room(BigInt(this.size))];
    this.at = Number(this.place);
    if (!this.at) throw new HostEnded('there is no memory');
  }
}

/** A host of one member, with a memory of its own. Nothing here waits: each call answers before it returns. HostEnded where it broke off. */
export class Host {
  /** @param {WebAssembly.Instance} instance */
  constructor(instance) {
    this.calls = /** @type {Calls} */ (/** @type {unknown} */ (instance.exports));
    this.memory = /** @type {WebAssembly.Memory} */ (instance.exports.memory);
    this.bytes = new Uint8Array(0);
    this.numbers = new DataView(this.bytes.buffer);
    this.isOver = false;
    this.input = new Room(this.calls, ROOM);
    this.output = new Room(this.calls, ROOM);
    this.told = new Room(this.calls, PLACE);
    this.sizePlace = this.told.place + BigInt(SIZE_AT);
    // where the bytes of the event are that was fetched
    this.from = this.until = 0;
    const { at, place } = new Room(this.calls, PLACE);
    this.place = place;
    this.seen().fill(0, at, at + PLACE); // closed
    this.must(this.calls.wb_open(place));
  }

  // ---- calls by bytes

  /** A datagram came in, at a host that is not judged. The answer refuses bytes that are none, or that no host takes.
   * @param {number} now @param {Uint8Array} datagram */
  came(now, datagram) {
    const moment = BigInt(now), length = BigInt(datagram.length);
    return this.guarded(() => this.answer(this.calls.wb_came(this.place, moment, this.given(datagram), length)));
  }

  /** Bytes came in from an origin, at a judged host.
   * @param {number} now @param {OriginNumbers} origin @param {Uint8Array} datagram */
  cameFrom(now, { place, owner }, datagram) {
    const moment = BigInt(now), length = BigInt(datagram.length);
    return this.guarded(() => this.answer(this.calls.wb_came_from(this.place, moment, place, owner ?? 0n, Number(owner !== null), this.given(datagram), length)));
  }

  /** The time of day at a moment, in microseconds since 1970, at a judged host.
   * @param {number} now @param {number} time */
  wall(now, time) {
    const moment = BigInt(now), day = BigInt(time);
    return this.guarded(() => this.answer(this.calls.wb_wall(this.place, moment, day)));
  }

  /** The network says that whoever spoke from an origin is gone, at a judged host.
   * @param {number} now @param {OriginNumbers} origin */
  gone(now, { place, owner }) {
    const moment = BigInt(now);
    return this.guarded(() => this.answer(this.calls.wb_gone(this.place, moment, place, owner ?? 0n, Number(owner !== null))));
  }

  /** Time goes on to a moment.
   * @param {number} now */
  tick(now) {
    const moment = BigInt(now);
    return this.guarded(() => this.answer(this.calls.wb_tick(this.place, moment)));
  }

  /** The user draws what the drawop of these bytes does, on its page and at its time; it gets a name of its own.
   * @param {number} now @param {Uint8Array} drawop */
  add(now, drawop) {
    const moment = BigInt(now), length = BigInt(drawop.length);
    return this.guarded(() => this.answer(this.calls.wb_add(this.place, moment, this.given(drawop), length)));
  }

  /** The events of a question (include/wb.h), or why it is none.
   * @param {number} question @param {number} creator @param {number} number @param {number} [width] @param {number} [height]
   * @returns {{ events: Event[], refused: string | null }} */
  events(question, creator, number, width = 0, height = 0) {
    return this.guarded(() => {
      const status = this.must(this.calls.wb_ask(this.place, question, creator, number, width, height)), events = [];
      for (let kind = this.next(); kind; kind = this.next()) events.push({ kind, bytes: this.copied() });
      return { events, refused: status === DONE ? null : refusalOf(status) };
    });
  }

  /** The moment at which to call `tick` next. */
  due() {
    return this.guarded(() => this.nextDue());
  }

  nextDue() {
    const due = this.calls.wb_due(this.place);
    return due < 0n ? null : Number(due); // WB_NEVER has all bits
  }

  /** What a call came to that has this status: its events are taken.
   * @param {number} status */
  answer(status) {
    const answer = new Answer();
    if (this.must(status) !== DONE) answer.refused = refusalOf(status);
    else for (let kind = this.next(); kind; kind = this.next()) this.tell(kind, answer);
    answer.due = this.nextDue();
    return answer;
  }

  /** What the event that was fetched tells. Those of questions are handed on as they are.
   * @param {number} kind @param {Answer} answer */
  tell(kind, answer) {
    switch (kind) {
      case 1: answer.send.push(this.copied()); break;
      case 2: answer.became = 'new'; break;
      case 3: answer.became = 'again'; break;
      case 4: answer.became = 'clash'; break;
      case 5: answer.became = 'full'; break;
      case 12: answer.dropped = DROPS[this.numberIn(0) - 1]; break;
      case 13: answer.records.push(this.textIn()); break;
      case 14: answer.drew.push(`${this.numberIn(0)} ${this.numberIn(1)}/${this.numberIn(2)} ${this.numberIn(3)}`); break;
      case 15: answer.fetch = { place: this.longIn(0), owner: this.sizeIn() > 16 ? this.longIn(2) : null, lacking: this.longIn(1) }; break;
      case 16: answer.warning = WARNINGS[this.numberIn(0) - 1] + (this.sizeIn() > 4 ? ` ${this.numberIn(1)}` : ''); break;
      default:
    }
  }

  // ---- calls by lines

  /** The block of a line.
   * @param {string} line */
  ask(line) {
    const rows = this.text(line).split('\n');
    rows.pop();
    return new Block(rows, rows.pop() ?? 'refused nothing');
  }

  /** The text that a line prints.
   * @param {string} line */
  text(line) {
    return read.decode(this.printed(written.encode(line)));
  }

  /** The bytes that a line prints, until the next call.
   * @param {Uint8Array} line without its line feed */
  printed(line) {
    return this.guarded(() => {
      const { calls, place, output, sizePlace } = this;
      if (this.must(calls.wb_line(place, this.given(line), BigInt(line.length), output.place, output.length, sizePlace)) === WAITS) {
        output.reach(this.size());
        this.must(calls.wb_block(place, output.place, output.length, sizePlace));
      }
      return this.seen().subarray(output.at, output.at + this.size());
    });
  }

  // ---- the memory

  /** The bytes of the memory: others after it has grown. */
  seen() {
    const { buffer } = this.memory;
    if (this.bytes.buffer !== buffer) [this.bytes, this.numbers] = [new Uint8Array(buffer), new DataView(buffer)];
    return this.bytes;
  }

  /** Puts bytes where a call reads them, and gives the place.
   * @param {Uint8Array} bytes */
  given(bytes) {
    this.input.reach(bytes.length);
    this.seen().set(bytes, this.input.at);
    return this.input.place;
  }

  /** The size that a call told. */
  size() {
    this.seen();
    return this.numbers.getUint32(this.told.at + SIZE_AT, true);
  }

  /** Fetches the next event, and gives its kind; 0 if none waits.
   * @returns {number} */
  next() {
    const { calls, place, output, told } = this, status = this.must(calls.wb_event(place, told.place, output.place, output.length, this.sizePlace));
    if (status === NOTHING) return 0;
    const size = this.size();
    if (status === WAITS) {
      output.reach(size);
      return this.next();
    }
    this.from = output.at;
    this.until = output.at + size;
    return this.numbers.getUint32(told.at, true);
  }

  /** The bytes of the event that was fetched. */
  copied() {
    return this.bytes.slice(this.from, this.until);
  }

  sizeIn() {
    return this.until - this.from;
  }

  /** Its text: a line of the record. For a few letters a decoder takes longer. */
  textIn() {
    const { bytes, from, until } = this;
    if (until - from > FEW_LETTERS) return readLetters.decode(bytes.subarray(from, until));
    let text = '';
    for (let at = from; at < until; at += 1) text += String.fromCharCode(bytes[at]);
    return text;
  }

  /** A number of it, by its place among those.
   * @param {number} index */
  numberIn(index) {
    return this.numbers.getUint32(this.from + 4 * index);
  }

  /** The same of numbers of 64 bits.
   * @param {number} index */
  longIn(index) {
    return this.numbers.getBigUint64(this.from + 8 * index);
  }

  // ---- its end

  /** Begins anew, without a board. */
  renew() {
    this.guarded(() => {
      this.calls.wb_close(this.place);
      this.must(this.calls.wb_open(this.place));
    });
  }

  /** The status of a call, where that did not end the host.
   * @param {number} status */
  must(status) {
    if (status === MEMORY || status === CLOSED) throw new HostEnded(status === MEMORY ? 'there is no memory' : 'it is closed');
    return status;
  }

  /** Does something that may end the host. Of one that broke off nothing is asked any more.
   * @template T @param {() => T} act @returns {T} */
  guarded(act) {
    if (this.isOver) throw new HostEnded('it was ended');
    try {
      return act();
    } catch (fault) {
      this.isOver = true;
      throw fault instanceof HostEnded ? fault : new HostEnded(String(fault));
    }
  }
}

/** A memory and a table of 64 bits: an engine that takes this module has them. */
const WIDE = new Uint8Array([0, 97, 115, 109, 1, 0, 0, 0, 4, 4, 1, 112, 4, 0, 5, 3, 1, 4, 1]);

/** Whether the engine takes the module as the compiler made it. */
export function isWide() {
  return WebAssembly.validate(WIDE);
}

/** The library as a module that was compiled once, and started as often as wanted. */
export class Program {
  /** @param {WebAssembly.Module} module @param {boolean} wide */
  constructor(module, wide) {
    this.module = module;
    this.wide = wide;
  }

  /** Fetches the module that suits the engine.
   * @param {URL} folder @param {boolean} [wide] */
  static async load(folder, wide = isWide()) {
    const answer = await fetch(new URL(wide ? 'wb.wasm' : 'wb-any.wasm', folder));
    if (!answer.ok) throw new Error(`${answer.url}: ${answer.status}`);
    // not while it comes, which takes a server that knows the type of such files
    return new Program(await WebAssembly.compile(await answer.arrayBuffer()), wide);
  }

  /** A host without a board. */
  async start() {
    return new Host(await WebAssembly.instantiate(this.module));
  }

  /** What the module says of itself, in lines: its version, the digest of its sources, and whether they are proved. */
  async version() {
    const host = await this.start(), bytes = host.seen(), from = Number(host.calls.wb_version());
    return read.decode(bytes.subarray(from, bytes.indexOf(0, from)));
  }
}
