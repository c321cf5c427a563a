/** What a member does by the words of its host, which judges all that comes in: what it sends, and how it tells people. As `live/judging.py`. What it
 * decides itself docs/DECISIONS.md has. */
import { constantsFor } from './constants.js';
import { Heard } from './heard.js';
import { Tails } from './tails.js';
import { drawopOf } from './views.js';

/** @typedef {import('./datagram.js').Datagram} Datagram */
/** @typedef {import('./host.js').Answer} Answer */
/** @typedef {import('./origins.js').Origin} Origin */

/** Why a host drops a datagram, for people. */
const WHY = /** @type {Record<string, string>} */ ({
  again: 'it would hush us', ahead: 'ahead of the clock', crowd: 'too many new members', datagram: 'no datagram', flood: 'too many requests or questions',
  full: 'the board is full', mark: 'a mark of ours', own: 'under our number', share: 'over the share of strangers', speaks: 'under the number of another',
  holes: 'a stranger left numbers out', pages: 'strangers are on too many pages, or too many numbers', stranger: 'a stranger asks for what is not held',
});

/** What a host warns people of, by its word, and the datagram's speaker. That another has our number telling.js tells as long as it is so.
 * @type {Record<string, (speaker: number) => string>} */
const WARNINGS = {
  full: (speaker) => `the board is full: drawings of member ${speaker} are not kept`,
  mark: () => 'a report tells of a drawing of ours that we did not make',
  share: (speaker) => `strangers have their share of the board: drawings of member ${speaker} are not kept`,
  speaks: (speaker) => `somebody else speaks under the number of member ${speaker}: that is not heeded`,
};

const SECOND = 1_000_000;

/** A member that was not heard for so long is not shown any more, after some reports of its own: the mean from one to the next is between
 * these, as judged hosts have it. */
const GONE_AFTER = 60 * SECOND, GONE_AFTER_REPORTS = 3, LEAST_INTERVAL = 2 * SECOND, MOST_INTERVAL = 64 * SECOND;

/** What stands on the member's side of its judging.
 * @typedef {object} Judged
 * @property {boolean} isClosed   whether a key closes the session
 * @property {number} me
 * @property {boolean} isReady   whether it may draw
 * @property {import('./drawn.js').Drawn} drawn
 * @property {import('./alarms.js').Alarms} alarms
 * @property {import('./wire.js').Wire} wire
 * @property {import('./board.js').Board} board
 * @property {import('./telling.js').Telling} telling
 * @property {(answer: Promise<Answer>) => Promise<void>} obey   what the host sends for a call goes out
 * @property {(drawop: import('./views.js').Drawop) => void} hold   the host has taken in a drawop
 * @property {() => Promise<void>} tick   the host does what is due
 * @property {() => Promise<void>} repeat   what we drew last goes out once more
 * @property {() => Promise<void>} begin   from now on it may draw
 * @property {() => boolean} mayPart   whether it takes a new number by itself
 * @property {() => Promise<void>} part   it does so */

export class Judging {
  /** @param {Judged} member */
  constructor(member) {
    this.member = member;
    this.heard = new Heard(member.board);
    this.tails = new Tails(member.me);
    this.hasTwin = false; // somebody else has our number: for good, also to the host that comes after this one
    this.patience = GONE_AFTER;
    this.tuning = member.board.tuning; // the constants of the timers that the host should have
  }

  /** What is to be done, each with its moment.
   * @returns {[number, () => Promise<void>][]} */
  plan() {
    const { member, member: { board } } = this, tail = this.tails.due();
    /** @type {[number, () => Promise<void>][]} */
    const plan = board.due === null ? [] : [[board.due, () => member.tick()]];
    if (tail !== null) plan.push([tail, () => member.repeat()]);
    if (this.tuning !== board.tuning) plan.push([board.moment, () => board.tune(this.tuning)]);
    if (this.hasTwin && member.mayPart()) plan.push([board.moment, () => member.part()]);
    return member.isReady ? plan : [...plan, [board.readyAt, () => member.begin()]];
  }

  // ---- what comes in

  /** Hands what came in to the host: what that sends then, and why it changes nothing, where it is so.
   * @param {Datagram | null} datagram what the bytes say @param {Uint8Array} bytes @param {Origin} origin
   * @returns {Promise<{ sent: Uint8Array[], refused: string | null }>} */
  async heed(datagram, bytes, origin) {
    const { board } = this.member;
    if (board.isWrong()) await this.member.obey(board.tellTime());
    const answer = await board.came(bytes, origin), { send, dropped, refused } = answer;
    if (datagram) await this.notice(datagram, origin, answer);
    return { sent: send, refused: dropped === null ? refused : WHY[dropped] ?? dropped };
  }

  /** Draws the conclusions from what a host says of a datagram.
   * @param {Datagram} datagram @param {Origin} origin @param {Answer} answer */
  async notice(datagram, origin, answer) {
    const { heard, member: { board } } = this, { dropped, refused, warning } = answer, isTaken = dropped === null && refused === null, isReport = isTaken && ['session-message', 'page-state'].includes(datagram.kind);
    if (isReport) heard.note(datagram);
    await heard.look();
    if (isReport) this.noticeReport(datagram, origin);
    const isMember = heard.isMember(origin);
    // what would hush us alone, the others hear too
    if (isMember && (dropped === null || dropped === 'again')) this.tails.hear(datagram, board.moment);
    if (datagram.kind === 'draw') this.noticeDrawop(datagram, answer, isMember && dropped !== null);
    if (warning !== null) this.warn(warning, datagram.speaker);
  }

  /** The host has heard a report of another.
   * @param {Datagram} report @param {Origin} origin */
  noticeReport({ kind, speaker, page, marks }, { place }) {
    const { telling, wire } = this.member;
    if (kind === 'session-message') {
      wire.learn(place, speaker);
      this.count();
    }
    if (this.heard.hasAnswered(speaker)) telling.notice(page, marks);
  }

  /** What became of a drawop. One that the host dropped, since it would hush us, may clash too: where it is a member's, that is looked at here.
   * @param {Datagram} datagram @param {Answer} answer @param {boolean} mayClash */
  noticeDrawop({ words, name, speaker: source, page, seq }, { drew, became }, mayClash) {
    const { drawn, telling } = this.member, held = mayClash ? drawn.find(name) : null;
    if (drew.length) this.member.hold(drawopOf(words));
    const fate = held && held.words !== words ? 'clash' : became;
    if (fate !== null) telling.noticeFate({ source, page, seq }, fate);
  }

  /** @param {string} warning @param {number} speaker */
  warn(warning, speaker) {
    const [word] = warning.split(' ', 1);
    if (word === 'twin') this.hasTwin = true;
    else this.member.alarms.warn(WARNINGS[word](speaker));
  }

  /** The network says that who spoke from there is gone.
   * @param {Origin} origin */
  async leave(origin) {
    await this.member.obey(this.member.board.leave(origin));
    this.heard.leave(origin);
  }

  // ---- what is sent

  /** A datagram of ours of this size in bytes goes out.
   * @param {Datagram | null} datagram @param {number} size */
  goes(datagram, size) {
    if (datagram?.kind === 'request') {
      this.tails.asked(this.member.board.moment);
      this.member.telling.reported.ask(datagram.name);
    }
    if (datagram?.kind !== 'session-message') return;
    this.patience = Math.max(GONE_AFTER, GONE_AFTER_REPORTS * this.interval(size));
    this.count();
    this.member.telling.noticeRoom();
  }

  /** The mean from one report of a member to the next, where all are as long as ours.
   * @param {number} size */
  interval(size) {
    const { board } = this.member, members = this.present().length + 1;
    return Math.min(MOST_INTERVAL, Math.max(LEAST_INTERVAL, (members * size * SECOND) / board.options.rate));
  }

  // ---- who is there

  /** The members that were heard lately. Under a key only those that have answered us: of others what was said before may be played once more.
   * @returns {[number, import('./heard.js').Other][]} */
  present() {
    const present = this.heard.within(this.patience, this.member.board.now());
    return this.member.isClosed ? present.filter(([, { answered }]) => answered !== null) : present;
  }

  /** The constants of the timers go by how many are heard. */
  count() {
    this.tuning = constantsFor(this.present().length, this.tuning, this.member.board.options.many);
  }
}
