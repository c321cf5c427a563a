/** A member without a network and a clock, for browsers and Node: a program hands it datagrams and moments, and sends what it answers. */
import { draftOf, drawingIn, drawopOf, pageIn, wordsOf } from './drawings.js';
import { Answer, Block, HostEnded, Host as BareHost, Program } from './host.js';

export { Answer, BareHost, HostEnded, Program, drawingIn, drawopOf };

/** A call that is the program's own was refused. It changed nothing. `fault` says why, as `listening`. */
export class Refused extends Error {
  /** @param {string} call @param {string} fault */
  constructor(call, fault) {
    super(`${call.slice(0, 80)}: ${fault}`);
    this.fault = fault;
  }
}

/** Microseconds for which a member only listens whose number may have drawn before. */
export const LISTENING = 6_000_000;

/** @typedef {import('./host.js').Became} Became */

/** @typedef {import('./drawings.js').Drawop} Drawop */
/** @typedef {import('./drawings.js').Drawing} Drawing */

/** What a call came to, and the drawop that is held now and was not before: its name, its page and what it draws.
 * @typedef {Answer & { drawop: Drawop | null }} Told */

/** Numbers of a source that are missing, from the first to the last.
 * @typedef {object} Gap
 * @property {number} source
 * @property {number} first
 * @property {number} last */

/** How a host is opened. `cells` is the room of its board, `rate` the bytes a second that the reports of all members may take, and `listen` the
 * microseconds for which it only listens and draws nothing: 0 only for a number that never drew.
 * @typedef {object} Opening
 * @property {Program} program the module, as `Program.load` or `load` of node.js gives it
 * @property {number} [cells]
 * @property {bigint} [seed]
 * @property {number} [rate]
 * @property {number} [listen] */

/** What the block of a drawing tells, where it does not go out.
 * @type {Record<string, Became>} */
const OUTCOMES = { 'batch 0 0 1 0': 'clash', 'batch 0 0 0 1': 'full' };

/** The questions of include/wb.h, and the size of a number in an event. */
const NEXT = 1, VIEW = 2, GAPS = 3, REPORT = 4, PAGES = 5, KNOWN = 6, CANVAS = 7, DIGEST = 8, NUMBER = 4;

const MOST_NUMBER = 0xffffffff, letters = new TextDecoder('latin1');

/** The words of a page for a question: `1/1` is `1 1` there.
 * @param {string} page */
function twoOf(page) {
  return page.replace('/', ' ');
}

/** The numbers of an event.
 * @param {Uint8Array} bytes @returns {number[]} */
function numbersIn(bytes) {
  const view = new DataView(bytes.buffer, bytes.byteOffset);
  return Array.from({ length: bytes.length / NUMBER }, (_, at) => view.getUint32(NUMBER * at));
}

/** A self-managing member: it asks for what it lacks, reports, repairs, and answers others. Moments are microseconds below 2^48 that never
 * go back; begin near `begun`. Each call answers before it returns. */
export class Host {
  /** @param {number} member @param {BareHost} bare */
  constructor(member, bare) {
    this.member = member;
    /** Its calls by bytes and by lines (include/wb.h).
     * @type {BareHost | null} */
    this.bare = bare;
    /** The moment at which to call `tick` next.
     * @type {number | null} */
    this.due = null;
    /** The moment of its beginning, and the one from which on it may draw. */
    this.begun = this.readyAt = 0;
  }

  /** Opens one. `member` is its number, which no other member of the session has.
   * @param {number} member @param {Opening} opening */
  static async open(member, { program, cells = 65_535, seed, rate = 4_000, listen = LISTENING }) {
    const host = new Host(member, await program.start());
    host.must(`board ${member} ${cells} 1 ${seed ?? anySeed()}`);
    host.must(`keep ${rate} ${listen}`);
    host.readyAt = listen;
    return host;
  }

  /** What takes the calls. HostEnded where it was ended. */
  live() {
    if (!this.bare) throw new HostEnded('it was ended');
    return this.bare;
  }

  /** The block of a line.
   * @param {string} line @returns {Block} */
  ask(line) {
    if (line.includes('\n')) throw new Refused(line.split('\n', 1)[0] ?? '', 'a line feed in a line');
    const block = this.live().ask(line);
    if (block.fault === null) this.due = block.due;
    return block;
  }

  /** @param {string} line */
  must(line) {
    const block = this.ask(line);
    if (block.fault !== null) throw new Refused(line, block.fault);
    return block;
  }

  /** @param {Answer} answer @param {Uint8Array} [datagram] that came in @returns {Told} */
  heed(answer, datagram) {
    this.due = answer.due;
    return Object.assign(answer, { drawop: datagram && answer.became === 'new' ? drawopOf(datagram) : null });
  }

  /** A datagram came in. The answer refuses bytes that are not one, or that no host takes; this program is not to blame. From which place, only
   * a host with a record minds.
   * @param {number} now @param {Uint8Array} datagram @param {bigint} [_place] @returns {Told} */
  came(now, datagram, _place) {
    return this.heed(this.live().came(now, datagram), datagram);
  }

  /** Time is `now`: to be called when the clock comes to `due`, and before more is handed in then.
   * @param {number} now */
  tick(now) {
    const answer = this.heed(this.live().tick(now));
    if (answer.refused !== null) throw new Refused(`tick ${now}`, answer.refused);
    return answer;
  }

  /** The user draws, as `{ kind: 'text', x: 0, y: 1, text: 'hello' }`, or in words, as `line 0 0 4 0 *`, `text 0 1 "hello"` or `delete 7 1`. If two
   * drawops cover one cell, the one with the greater time is seen: use the microseconds of the time of day.
   * @param {number} now @param {number | bigint} time @param {string} page as `1/1` @param {Drawing | string} drawing @returns {Told} */
  add(now, time, page, drawing) {
    const operation = wordsOf(drawing), draft = draftOf(page, time, operation), line = this.lineOf(now, time, page, operation);
    return this.named(draft ? this.byBytes(line, now, draft) : this.byLine(line));
  }

  /** The line of a drawing.
   * @param {number} now @param {number | bigint} time @param {string} page @param {string} operation */
  lineOf(now, time, page, operation) {
    return `add ${now} ${time} ${page} ${operation}`;
  }

  /** Draws by bytes. What is refused is what its line is refused for.
   * @param {string} line @param {number} now @param {Uint8Array} draft */
  byBytes(line, now, draft) {
    const answer = this.heed(this.live().add(now, draft));
    if (answer.refused !== null) throw new Refused(line, answer.refused);
    return answer;
  }

  /** Draws by its line, which says what is wrong with it.
   * @param {string} line @returns {Answer} */
  byLine(line) {
    const block = this.must(line), became = OUTCOMES[block.lines[block.lines.length - 1] ?? ''] ?? 'new';
    return Object.assign(new Answer(), { send: block.sent(), due: this.due, became });
  }

  /** An answer with the drawing in it, which goes out behind what is due before.
   * @param {Answer} answer @returns {Told} */
  named(answer) {
    const drawops = answer.became === 'new' ? answer.send.map(drawopOf) : [];
    return Object.assign(answer, { drawop: drawops.reverse().find((drawop) => drawop?.source === this.member) ?? null });
  }

  /** Draws one after another, until one has no room. Refused at the first that the host does not take; those before it are drawn.
   * @param {number} now @param {number | bigint} time @param {string} page @param {(Drawing | string)[]} drawings @returns {Told[]} */
  addAll(now, time, page, drawings) {
    const answers = [];
    for (const drawing of drawings) {
      const answer = this.add(now, time, page, drawing);
      answers.push(answer);
      if (answer.became === 'full') break;
    }
    return answers;
  }

  /** Gives the timers other constants, 1 to 16 each.
   * @param {number} c1 @param {number} c2 @param {number} d1 @param {number} d2 */
  tune(c1, c2, d1, d2) {
    this.must(`tuning ${c1} ${c2} ${d1} ${d2}`);
  }

  /** The bytes of each item that a question finds. What is no question its line refuses.
   * @param {string} line @param {number} question @param {string} page @param {number} [width] @param {number} [height] @returns {Uint8Array[]} */
  items(line, question, page, width = 0, height = 0) {
    const named = pageIn(page), isOne = named && [width, height].every((each) => Number.isInteger(each) && each >= 0 && each <= MOST_NUMBER);
    const { events, refused } = isOne ? this.live().events(question, ...named, width, height) : { events: [], refused: 'number' };
    if (refused === null) return events.map(({ bytes }) => bytes);
    this.must(line);
    throw new Refused(line, refused);
  }

  /** The rows of the page's canvas, 1 to 200 wide and 1 to 100 high.
   * @param {string} page @param {number} width @param {number} height */
  show(page, width, height) {
    const [rows] = this.items(`show ${twoOf(page)} ${width} ${height}`, CANVAS, page, width, height);
    return letters.decode(rows).split('\n').slice(0, -1);
  }

  /** What the page shows, in the order of painting.
   * @param {string} page @returns {Drawop[]} */
  view(page) {
    return this.items(`view ${twoOf(page)}`, VIEW, page).map((bytes) => /** @type {Drawop} */ (drawopOf(bytes)));
  }

  /** What is missing of the page.
   * @param {string} page @returns {Gap[]} */
  gaps(page) {
    return this.items(`gaps ${twoOf(page)}`, GAPS, page).map((bytes) => {
      const [source = 0, first = 0, last = 0] = numbersIn(bytes);
      return { source, first, last };
    });
  }

  /** Of each source, the greatest number that is held of the page.
   * @param {string} page @returns {Map<number, number>} */
  report(page) {
    return new Map(this.items(`report ${twoOf(page)}`, REPORT, page).map((bytes) => /** @type {[number, number]} */ (numbersIn(bytes))));
  }

  /** 32 bytes that two members compare: if they are equal, both hold the same drawops of the page.
   * @param {string} page */
  digest(page) {
    return this.items(`digest ${twoOf(page)}`, DIGEST, page)[0] ?? new Uint8Array();
  }

  /** The pages that have drawops. */
  pages() {
    return this.items('pages', PAGES, '0/0').map((bytes) => numbersIn(bytes).join('/'));
  }

  /** The pages that have drawops, or were heard of. */
  known() {
    return this.items('known', KNOWN, '0/0').map((bytes) => numbersIn(bytes).join('/'));
  }

  /** The number of the lines that the program reads and prints. docs/HOST.md says what it promises. */
  version() {
    return Number(this.must('version').lines[0]?.slice(8));
  }

  /** The number that our next drawop on the page will have.
   * @param {string} page */
  nextNumber(page) {
    const line = `next ${twoOf(page)}`, [bytes] = this.items(line, NEXT, page);
    if (!bytes) this.must(line);
    return numbersIn(bytes ?? new Uint8Array(NUMBER))[0] ?? 0;
  }

  /** Lets the host go, with its memory. */
  end() {
    this.bare = null;
  }
}

/** A seed that nobody guesses. */
export function anySeed() {
  return /** @type {bigint} */ (crypto.getRandomValues(new BigUint64Array(1))[0]);
}
