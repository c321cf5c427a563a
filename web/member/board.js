/** A judged host, with its record: what it says is to be recorded is in the record before its datagrams leave, and a host that broke off
 * starts from it. As `live/board.py`. */
import { FEW } from './constants.js';
import { drawopIn, heldOf, linesOfOthers, nameIn } from './held.js';
import { HostEnded } from './host.js';
import { numberOf, numbersOf, pointLine, takePoint } from './origins.js';
import { FIRST_LINE, actsOf } from './record.js';
import { drawopOf, pageWords } from './views.js';

/** @typedef {import('./views.js').Drawop} Drawop */
/** @typedef {import('./host.js').Answer} Answer */
/** @typedef {import('./host.js').Block} Block */
/** @typedef {import('./host.js').Host} Host */

/** What a board is begun with: the room of a new one, in drawops; bytes a second that the reports of all members take; the constants of the
 * timers if many are heard; and whether the number may have drawn what its record lacks.
 * @typedef {{ cells: number, rate: number, many: string, mayHaveDrawn: boolean }} Start */

/** The part of a page that is painted: the greatest canvas that a host gives. */
export const COLUMNS = 200, ROWS = 100;

/** A number that may have drawn before listens for this many microseconds: a crash of the machine may have taken the end of its record. Any
 * other listens to its record alone, which may have a mark of its own. */
const LISTENING = 6_000_000, LEAST_LISTENING = 1;

/** Moments are below this, and the clock of a start begins anywhere in one part in so many of those that are left: who echoes a moment of ours has
 * heard it, and has not guessed it. */
const MOMENTS = 2 ** 48, LEAD_PART = 512;

/** The lines that have a moment. */
const MOMENT = /^(?:judge|add) (\d+)/;

/** By how much the time of day may be another than the host reckons. */
const SLACK = 1_000_000;

/** A host that is started so often within a minute, in milliseconds, is not started again. */
const MOST_STARTS = 4, MINUTE = 60_000;

/** A line with which to try whether the record can be written again. */
const TRIED = '# there is room again';

/** The host broke off too often: nothing more is tried. */
export class BoardFault extends Error {}

/** The record can't be written. */
export class NoRoom extends Error {}

export class Board {
  /** @param {import('./host.js').Program} program @param {import('./record.js').Record} record @param {Start} options
   * @param {import('./transports.js').Transport} transport says who we are there, and how many drawops of strangers are taken
   * @param {(drawop: Drawop) => void} hold is told each drawop that the host took in */
  constructor(program, record, options, transport, hold) {
    this.program = program;
    this.record = record;
    this.options = options;
    this.transport = transport;
    this.hold = hold;
    /** Names of what no member gave, by the lines of the record.
     * @type {Set<string>} */
    this.strange = new Set();
    /** @type {Host | null} */
    this.host = null;
    this.tuning = FEW; // the constants of the timers, also of the next host
    this.me = 0;
    this.cells = 0;
    this.moment = 0; // of the last line that has one
    this.readyAt = 0; // from then on it may draw
    this.begunAt = 0; // the moment of the present host's first
    this.wall = this.wallAt = 0; // the time of day that the host was told, and the moment of that
    this.base = 0;
    /** The moment at which the host has something to do.
     * @type {number | null} */
    this.due = null;
    /** Lines of the record of which nothing may be sent yet.
     * @type {string[]} */
    this.drawn = [];
    /** When the host broke off, in milliseconds.
     * @type {number[]} */
    this.ends = [];
  }

  /** Starts the host: with what the record has, or with a new board.
   * @param {number} me */
  async open(me) {
    const lines = await this.record.lines();
    if (!actsOf(lines).length) this.record.add(FIRST_LINE, boardLine(me, this.options.cells));
    if (!takePoint(lines)) this.record.add(pointLine());
    this.record.note('started');
    await this.start(this.options.mayHaveDrawn ? LISTENING : 0, chance() / LEAD_PART);
    // above every moment of the record
    this.base = this.moment + 1 - performance.now() * 1_000;
  }

  /** The present moment, in microseconds of the session, above that of each line so far. */
  now() {
    return Math.max(this.clock(), this.moment + 1);
  }

  clock() {
    return Math.floor(performance.now() * 1_000 + this.base);
  }

  /** Starts a judged host, and gives it the lines of the record.
   * @param {number} listening for how many microseconds nothing is drawn
   * @param {number} [lead] which part of the moments that are left is passed over */
  async start(listening, lead = 0) {
    const { board, moment, lines } = heldOf(actsOf(await this.record.lines())), host = await this.program.start();
    this.begunAt = 1 + Math.max(this.moment, moment + Math.floor(lead * (MOMENTS - moment)));
    this.readyAt = this.begunAt + Math.max(LEAST_LISTENING, listening);
    this.strange = new Set();
    for (const line of [board, this.lineToJudge(), tuningLine(this.tuning)]) {
      const { fault } = this.ask(host, line);
      if (fault !== null) throw new BoardFault(`no host can have this board: ${board} (${fault})`);
    }
    for (const line of lines) {
      const block = this.ask(host, `held ${line}`);
      if (block.fault !== null) throw new BoardFault(`no host takes a line of the record (${block.fault}): ${line.slice(0, 60)}`); // its number would be used twice
      if (block.said('drew').length) this.hold(drawopIn(line));
      this.noteGiver(line);
    }
    this.host = host;
    [this.me, this.cells] = board.split(' ').slice(1, 3).map(Number);
  }

  /** The line that makes a host judge. */
  lineToJudge() {
    const { begunAt, readyAt, options: { rate }, transport: { here, strangers } } = this;
    [this.wall, this.wallAt] = [timeOfDay(), begunAt];
    return `judge ${begunAt} ${rate} ${readyAt - begunAt} ${this.wall} ${here === null ? '-' : numberOf(here)} ${strangers ?? '-'}`;
  }

  /** Starts a host in the place of one that broke off, which is thrown away with its memory. */
  async startAgain() {
    for (this.host = null; !this.host;) {
      const now = performance.now();
      this.ends = [...this.ends, now];
      if (this.ends.filter((end) => now - end < MINUTE).length >= MOST_STARTS) throw new BoardFault(`the host broke off ${MOST_STARTS} times within a minute`);
      await this.start(this.readyAt - this.moment).catch((fault) => { if (!(fault instanceof HostEnded)) throw fault; });
    }
  }

  /** Goes on by a new host, which has what the record has, and asks at once, without the waits that have grown. */
  async beginAgain() {
    try {
      await this.start(this.readyAt - this.moment);
    } catch (fault) {
      if (!(fault instanceof HostEnded)) throw fault;
      await this.startAgain();
    }
  }

  // ---- calls

  /** The block of a line, with the next moment that is due.
   * @param {Host} host @param {string} line */
  ask(host, line) {
    const block = host.ask(line);
    if (block.fault === null) [this.due, this.moment] = [block.due, Number(MOMENT.exec(line)?.[1] ?? this.moment)];
    return block;
  }

  /** The answer of a call at a moment, with the next one that is due.
   * @param {number} now @param {Answer} answer */
  heed(now, answer) {
    if (answer.refused === null) [this.due, this.moment] = [answer.due, now];
    return answer;
  }

  /** What the host gives for a call. HostEnded where it broke off and was started again: then the call did nothing.
   * @template T @param {(host: Host) => T} call @param {string} what it is, for the record
   * @returns {Promise<T>} */
  async call(call, what) {
    if (!this.host) throw new BoardFault('there is no host');
    try {
      return call(this.host);
    } catch (fault) {
      if (!(fault instanceof HostEnded)) throw fault;
      this.record.note(`the host broke off (${String(fault).slice(0, 80)}) at: ${what.slice(0, 60)} ..`);
      await this.startAgain();
      throw fault;
    }
  }

  /** The block of a line.
   * @param {string} line */
  tell(line) {
    return this.call((host) => this.ask(host, line), line);
  }

  /** What the host gives for what others or the clock do at a moment. What it records is in the record before anything of it is sent; while that can't
   * be written, it waits, since others have what they drew.
   * @param {number} now @param {string} what @param {(host: Host) => Answer} act */
  async act(now, what, act) {
    const answer = await this.call((host) => this.heed(now, act(host)), `${what} ${now}`);
    this.keep(answer.records);
    if (answer.send.length && !this.record.fault) await this.record.flush();
    return answer;
  }

  /** Gives the timers other constants. What is set already keeps its moment.
   * @param {string} constants */
  async tune(constants) {
    this.tuning = constants;
    await this.tell(tuningLine(constants));
  }

  /** Gives the host a datagram that came in.
   * @param {Uint8Array} bytes @param {import('./origins.js').Origin} origin */
  came(bytes, origin) {
    const now = this.now();
    return this.act(now, 'came', (host) => host.cameFrom(now, numbersOf(origin), bytes));
  }

  /** The host does what is due.
   * @param {number} [now] */
  tick(now = this.now()) {
    return this.act(now, 'tick', (host) => host.tick(now));
  }

  /** The network says that who spoke from there is gone.
   * @param {import('./origins.js').Origin} origin */
  leave(origin) {
    const now = this.now();
    return this.act(now, 'gone', (host) => host.gone(now, numbersOf(origin)));
  }

  /** Whether the host reckons with another time of day than this machine's, as people may set it at any moment. */
  isWrong() {
    return Math.abs(this.wall + this.now() - this.wallAt - timeOfDay()) > SLACK;
  }

  /** Gives the host the time of day.
   * @param {number} [time] */
  tellTime(time = timeOfDay()) {
    const now = this.now();
    [this.wall, this.wallAt] = [time, now];
    return this.act(now, 'wall', (host) => host.wall(now, time));
  }

  /** Has the host draw, which gives a drawing its number and its time, and puts it into the record. Nothing of the block is sent before `settle`.
   * NoRoom where the record can't be written.
   * @param {string} page @param {string} operation
   * @returns {Promise<{ block: Block, drawop: Drawop | null }>} */
  async draw(page, operation) {
    if (this.record.fault && !await this.record.keep([TRIED])) throw new NoRoom(this.record.fault);
    const block = await this.tell(`add ${this.now()} ${page} ${operation}`), lines = block.said('record'), line = lines.find((one) => one.startsWith('say '));
    if (lines.length) this.record.add(...lines);
    this.drawn.push(...lines);
    return { block, drawop: line === undefined ? null : drawopIn(line) };
  }

  /** Puts what was drawn on the disk, all by one transaction, and gives what may be sent then. What can't be put there is as if it was never drawn,
   * also to the host, and nobody was told of its numbers.
   * @param {Drawop[]} drawops */
  async settle(drawops) {
    const lost = await this.record.settle(this.drawn.splice(0)), settled = drawops.filter(({ words }) => !lost.includes(`say ${words}`));
    if (lost.length) await this.beginAgain();
    settled.forEach(this.hold);
    return settled;
  }

  /** Puts lines into the record.
   * @param {string[]} lines */
  keep(lines) {
    for (const line of lines) this.noteGiver(line);
    if (lines.length) this.record.add(...lines);
  }

  /** What others gave stands in the record in words if no member gave it.
   * @param {string} line */
  noteGiver(line) {
    if (line.startsWith('draw ')) this.strange.add(nameIn(line));
    else if (line.startsWith('datagram ')) this.strange.delete(nameIn(line));
  }

  /** Goes on under another number, with a record of its own and with all that was held.
   * @param {number} me @param {import('./record.js').Record} record */
  async renumber(me, record) {
    const old = this.record, lines = await linesOfOthers(this.program, heldOf(actsOf(await old.lines())));
    if (!await record.keep([FIRST_LINE, boardLine(me, this.cells), pointLine(), `tick ${this.moment}`, ...lines])) throw new NoRoom(record.fault);
    this.record = record;
    this.readyAt = this.moment;
    await this.beginAgain();
    await old.remove();
  }

  // ---- questions

  /** What a page shows otherwise than when the host held `held` drawops.
   * @param {string} page @param {number} held
   * @returns {Promise<import('./showing.js').Since>} */
  async since(page, held) {
    const block = await this.tell(`since ${pageWords(page)} ${held}`), [head] = block.said('since');
    const hidden = block.said('hidden').map((name) => name.replace(' ', ` ${page} `));
    return { held: Number(head.split(' ', 1)[0]), hidden, shown: block.said('shown').map(placedOf) };
  }

  /** The digest of what is held of a page, in hexadecimal.
   * @param {string} page */
  async digest(page) {
    return (await this.tell(`digest ${pageWords(page)}`)).lines[0].slice('digest '.length);
  }

  /** The first `most` of the pages that are drawn on: first those of ours, then those of members, and of each kind first those drawn on last.
   * @param {number} most */
  async pages(most) {
    return (await this.tell(`list ${most}`)).lines.slice(1).map((line) => line.split(' ', 2).join('/'));
  }

  /** The rows of a page, without what is empty at their right and at the end.
   * @param {string} page */
  async canvas(page) {
    const rows = (await this.tell(`paint ${pageWords(page)} ${COLUMNS} ${ROWS}`)).lines.slice(1).map((row) => row.slice(1).trimEnd());
    while (rows.length && !rows[rows.length - 1]) rows.pop();
    return rows;
  }
}

/** What stands after `shown`: the place of a drawing, and its words.
 * @param {string} told @returns {import('./showing.js').Placed} */
function placedOf(told) {
  const [place] = told.split(' ', 1);
  return [Number(place), drawopOf(told.slice(place.length + 1))];
}

/** The time of day of this machine, in microseconds. */
const timeOfDay = () => Date.now() * 1_000;

/** The line that gives the timers these constants.
 * @param {string} constants */
const tuningLine = (constants) => `tuning ${constants.replaceAll(',', ' ')}`;

/** A number from 0 to 1 that nobody guesses. */
const chance = () => Number(BigInt.asUintN(53, crypto.getRandomValues(new BigUint64Array(1))[0])) / 2 ** 53;

/** @param {number} me @param {number} cells */
const boardLine = (me, cells) => `board ${me} ${cells} 1 ${crypto.getRandomValues(new BigUint64Array(1))[0]}`;
