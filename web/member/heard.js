/** Who is heard, as the host tells it by `members`, and the delay to each. As `live/heard.py`. docs/HOST-LINES.md has the line. */
import { wordOf } from './origins.js';

const SECOND = 1_000_000;

/** A host tells who was heard so long ago at most. A new one has heard nobody yet: then those are remembered whom the one before told. */
const PATIENCE = 192 * SECOND;

/** Each report changes what a host tells. It is asked only so often that of any time little is taken: microseconds for each number that it tells. */
const PAUSE = 100;

/** A number that was heard: from where, in the word of a host's lines, when last, when it last answered us, and the delay to it by that.
 * @typedef {{ origin: string, at: number, answered: number | null, delay: number | null }} Other */

export class Heard {
  /** @param {import('./board.js').Board} board */
  constructor(board) {
    this.board = board;
    /** @type {Map<number, Other>} */
    this.others = new Map();
    /** From where members speak.
     * @type {Set<string>} */
    this.members = new Set();
    /** When a report came that echoed us, and the delay to its speaker by that.
     * @type {Map<number, { at: number, delay: number }>} */
    this.echoes = new Map();
    this.isOld = false;
    this.nextAt = 0;
  }

  /** The host has heard a report, at its present moment.
   * @param {import('./datagram.js').Datagram} report */
  note({ speaker, echoes }) {
    const { me, moment: at } = this.board, [, sent, held] = echoes.find(([who]) => who === me) ?? [];
    if (sent !== undefined) this.echoes.set(speaker, { at, delay: Math.max(0, at - Number(sent) - Number(held)) / 2 });
    this.isOld = true;
  }

  /** Whether a number has answered us.
   * @param {number} number */
  hasAnswered(number) {
    return (this.others.get(number)?.answered ?? null) !== null;
  }

  /** Whether somebody has answered us from there, and was heard lately.
   * @param {import('./origins.js').Origin} origin */
  isMember(origin) {
    return this.members.has(wordOf(origin));
  }

  /** Whether a number that has answered us speaks from there.
   * @param {number} number @param {import('./origins.js').Origin} origin */
  isOf(number, origin) {
    return this.hasAnswered(number) && this.others.get(number)?.origin === wordOf(origin);
  }

  /** Whether somebody was heard from there lately.
   * @param {import('./origins.js').Origin} origin */
  async knows(origin) {
    await this.look();
    return [...this.others.values()].some((other) => other.origin === wordOf(origin));
  }

  /** Those that were heard so long ago at most.
   * @param {number} patience @param {number} now */
  within(patience, now) {
    return [...this.others].filter(([, { at }]) => now - at < patience);
  }

  /** The network says that who spoke from there is gone.
   * @param {import('./origins.js').Origin} origin */
  leave(origin) {
    const word = wordOf(origin);
    this.others = new Map([...this.others].filter(([, other]) => other.origin !== word));
    this.members.delete(word);
  }

  /** Asks the host, if that may tell others than before. */
  async look() {
    if (!this.isOld || this.board.now() < this.nextAt) return;
    await this.ask();
    this.nextAt = this.board.now() + PAUSE * this.others.size;
  }

  async ask() {
    const { board, others: before } = this, now = board.now(), { lines } = await board.tell('members');
    this.others = new Map([...before].filter(([, { at }]) => at <= board.begunAt && now - at <= PATIENCE));
    for (const line of lines.slice(1)) {
      const [, number, origin, answered, at] = line.split(' '), other = { origin, at: Number(at), answered: answered === '-' ? null : Number(answered) };
      this.others.set(Number(number), { ...other, delay: this.delay(Number(number), other, before.get(Number(number))) });
    }
    this.members = new Set([...this.others.values()].filter(({ answered }) => answered !== null).map(({ origin }) => origin));
    this.echoes.clear();
    this.isOld = false;
  }

  /** By the report that answered us, or else as it was.
   * @param {number} number @param {{ origin: string, answered: number | null }} other @param {Other | undefined} before */
  delay(number, { origin, answered }, before) {
    if (answered === null) return null;
    const echo = this.echoes.get(number);
    if (echo?.at === answered) return echo.delay;
    return before?.origin === origin ? before.delay : null;
  }
}
