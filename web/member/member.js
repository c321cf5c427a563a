/** A member of a session: hands to the host what comes in and what is drawn, ticks when it says, sends what it answers. What it concludes
 * from what that says stands in judging.js, what people do in people.js, and what it tells the board in telling.js. */
import { Alarms } from './alarms.js';
import { Board, NoRoom } from './board.js';
import { readDatagram } from './datagram.js';
import { Digests } from './digests.js';
import { Drawn } from './drawn.js';
import { HostEnded } from './host.js';
import { Judging } from './judging.js';
import { wordOf } from './origins.js';
import { People, Refused } from './people.js';
import { Presence, isAside, isDigest, readGone } from './presence.js';
import { Telling } from './telling.js';
import { Wire } from './wire.js';

/** The page of names, titles and the chat, which is not turned to by itself (docs/SCRIPTS.md). */
const NOTES = '0/0';

/** A turn waits this many milliseconds at most. */
const LONGEST_WAIT = 1_000;

/** The longest datagram that every transport carries. */
const MOST_BYTES = 65_507;

/** How often a member takes a new number by itself within how many milliseconds, if somebody else speaks under its own. After that it draws nothing
 * until people want a new one. */
const MOST_PARTINGS = 8, PARTED_LATELY = 3_600_000;

/** A new number, with an empty record.
 * @typedef {{ me: number, record: import('./record.js').Record }} Fresh */

/** What carries the datagrams of a member, and how many came that were not sealed by our key.
 * @typedef {import('./transports.js').Transport & { foreign?: number }} Carrier */

/** What a member is begun with: what its page says of it, how its board starts, where it may take new numbers, and who hears that it has begun
 * under one.
 * @typedef {{ notice: string, teach: boolean, start: import('./board.js').Start, fresh?: () => Promise<Fresh>, begun?: () => void }} Options */

export class Member {
  /** @param {import('./host.js').Program} program @param {import('./record.js').Record} record @param {number} me
   * @param {import('./inbox.js').Inbox} inbox takes what comes in
   * @param {Carrier} transport @param {Options} options
   * @param {(name: string, news: any) => void} post tells the board */
  constructor(program, record, me, inbox, transport, options, post) {
    this.me = me;
    this.inbox = inbox;
    this.transport = transport;
    this.options = options;
    this.page = '1/1';
    this.hasTurned = false; // until then it goes where something is drawn
    this.isReady = false;
    this.isEnded = false;
    this.isAwake = false;
    /** When it took a new number by itself.
     * @type {number[]} */
    this.parted = [];
    this.drawn = new Drawn();
    this.wire = new Wire();
    this.alarms = new Alarms();
    this.people = new People(this);
    this.presence = new Presence((news) => post('presence', news));
    this.digests = new Digests(this);
    this.telling = new Telling(this, post);
    this.board = new Board(program, record, options.start, transport, (drawop) => this.hold(drawop));
    this.judging = /** @type {Judging} */ (/** @type {unknown} */ (null));
    this.wake = () => { this.isAwake = true; };
    inbox.wake = () => this.wake();
    inbox.knows = (origin) => Boolean(this.judging?.heard.isMember(origin));
    /** Of whom the network says that they are gone.
     * @type {Set<string>} */
    this.leaving = new Set();
  }

  /** Whether a key closes the session. */
  get isClosed() {
    return this.transport.strangers === 0;
  }

  /** Starts the host. */
  async open() {
    await this.board.open(this.me);
    this.judging = new Judging(this);
  }

  // ---- the loop

  /** Goes on until it is ended, or its host can't be started again. */
  async run() {
    while (!this.isEnded) {
      try {
        await this.turn();
      } catch (fault) {
        if (!(fault instanceof HostEnded)) throw fault;
        this.telling.isChanged = true;
      }
      await this.rest(this.pause());
    }
  }

  async turn() {
    const { calls } = this.people;
    for (const call of calls.splice(0)) await call();
    await this.people.drawAll();
    for (let arrival = this.inbox.next(); arrival; arrival = this.inbox.next()) {
      await this.arrive(arrival);
      if (calls.length) break;
    }
    await this.passTime();
    await this.judging.heard.look();
    await this.digests.turn();
    await this.telling.tell();
  }

  /** What is due is done. */
  async passTime() {
    const now = this.board.clock();
    for (const [moment, act] of this.judging.plan()) if (moment <= now) await act();
  }

  /** Milliseconds until the next thing that is due. */
  pause() {
    if (this.people.calls.length) return 0;
    const until = (Math.min(...this.judging.plan().map(([moment]) => moment)) - this.board.clock()) / 1_000;
    return Math.min(LONGEST_WAIT, Math.max(1, until), this.inbox.pause(), this.telling.pause());
  }

  /** Waits some milliseconds, or until something comes in.
   * @param {number} pause */
  rest(pause) {
    if (this.isAwake || pause <= 0) {
      this.isAwake = false;
      return nextTask();
    }
    return new Promise((/** @type {(value?: any) => void} */ go) => {
      const timer = setTimeout(() => this.wake(), pause);
      this.wake = () => {
        clearTimeout(timer);
        this.wake = () => { this.isAwake = true; };
        go();
      };
    });
  }

  // ---- what comes in

  /** A datagram has come in: what no host hears of does not wait.
   * @param {Uint8Array} bytes @param {import('./origins.js').Origin} origin */
  take(bytes, origin) {
    const gone = readGone(bytes);
    if (!isAside(bytes)) this.inbox.take(bytes, origin);
    else if (isDigest(bytes)) {
      if (this.judging?.heard.isMember(origin)) this.digests.hear(bytes, origin);
    } else if (gone === null) {
      if (!this.isClosed || this.judging?.heard.isMember(origin)) this.presence.hear(bytes, this.me);
    } else {
      const left = this.transport.goneBy(gone, origin);
      if (left && !this.leaving.has(wordOf(left))) {
        this.leaving.add(wordOf(left));
        // a host that breaks off knows nobody afterwards
        this.people.call(() => this.leave(left)).catch(() => {});
      }
    }
  }

  /** Of whom was never heard nothing changes.
   * @param {import('./origins.js').Origin} origin */
  async leave(origin) {
    this.leaving.delete(wordOf(origin));
    if (await this.judging.heard.knows(origin)) await this.judging.leave(origin);
  }

  // ---- the host

  /** What the host sends for a call goes out.
   * @param {Promise<import('./host.js').Answer>} answer */
  async obey(answer) {
    for (const bytes of (await answer).send) this.send(bytes);
  }

  /** The host does what is due. */
  tick() {
    return this.obey(this.board.tick());
  }

  /** What we drew last goes out once more, which the record has already. Alone, there is nobody who could lack it. */
  async repeat() {
    const taken = this.judging.tails.take(this.board.now());
    if (this.judging.present().length) for (const bytes of taken) this.send(bytes);
  }

  /** The network was gone and is back: a host that starts from the record asks at once, without the waits that have grown. */
  beginAgain() {
    return this.people.call(async () => {
      await this.board.beginAgain();
      this.telling.isChanged = true;
    });
  }

  /** Sends a datagram of the host, and gives what it says.
   * @param {Uint8Array} bytes */
  send(bytes) {
    const datagram = readDatagram(bytes);
    this.judging.goes(datagram, bytes.length);
    this.wire.went(datagram);
    if (bytes.length <= MOST_BYTES) this.transport.send(bytes);
    else this.alarms.warn(`a datagram of over ${MOST_BYTES} bytes can't be sent`);
    if (datagram?.kind === 'session-message') this.digests.reported.add(datagram.page);
    return datagram;
  }

  /** The host has taken in a drawop.
   * @param {import('./views.js').Drawop} drawop */
  hold(drawop) {
    if (!this.hasTurned && drawop.page !== NOTES && !this.drawn.count(this.page)) this.page = drawop.page;
    this.drawn.add(drawop);
    this.telling.isChanged ||= drawop.page === this.page;
    this.telling.arePagesChanged = true;
  }

  /** Hands on a datagram that came in, tells what became of it, and sends what the host sends then.
   * @param {import('./inbox.js').Arrival} arrival */
  async arrive(arrival) {
    const { bytes, origin, isLost } = arrival, datagram = readDatagram(bytes);
    const { sent, refused } = isLost ? { sent: [], refused: null } : await this.judging.heed(datagram, bytes, origin);
    this.wire.came(datagram, arrival, refused);
    for (const answer of sent) this.send(answer);
  }

  // ---- what is done in a turn

  /** From now on it may draw. */
  async begin() {
    this.isReady = true;
    await this.people.drawAll();
  }

  /** Makes this the page in view.
   * @param {string} page */
  turnTo(page) {
    this.page = page;
    this.hasTurned = true;
    this.telling.isChanged = true;
  }

  /** Goes on under another number, with all that is held.
   * @param {number} me @param {import('./record.js').Record} record that of the number */
  async renumber(me, record) {
    await this.board.renumber(me, record);
    this.me = me;
    this.judging = new Judging(this);
    this.telling.isChanged = true;
    return { me };
  }

  /** Goes on under a new number. */
  async takeNumber() {
    const { fresh, begun } = this.options;
    if (!fresh) throw new Refused('no new number');
    const { me, record } = await fresh(), told = await this.renumber(me, record);
    begun?.();
    return told;
  }

  /** Whether it takes a new number by itself if somebody else has its own: a member by mishap, or somebody who heard us and forges, which look the same. */
  mayPart() {
    this.parted = this.parted.filter((at) => performance.now() - at < PARTED_LATELY);
    return this.options.fresh !== undefined && this.parted.length < MOST_PARTINGS;
  }

  /** Takes a new number by itself, and says so. If its record can't be written, nothing is drawn, as before. */
  async part() {
    const before = this.me;
    this.parted.push(performance.now());
    await this.takeNumber().then(({ me }) => this.alarms.warn(`somebody else spoke under our number ${before}: we draw on as member ${me}`), (fault) => {
      if (!(fault instanceof NoRoom)) throw fault;
      this.alarms.warn(`no new number: ${fault.message}`);
    });
  }

  /** Ends it: what it has is in the record then. */
  async end() {
    this.isEnded = true;
    this.wake();
    this.transport.end();
    await this.board.record.flush();
  }
}

const tasks = new MessageChannel();
/** @type {(() => void)[]} */
const waiting = [];
tasks.port1.onmessage = () => waiting.shift()?.();

/** The next turn of the event loop, after what has come in meanwhile.
 * @returns {Promise<void>} */
function nextTask() {
  return new Promise((go) => {
    waiting.push(go);
    tasks.port2.postMessage(0);
  });
}
