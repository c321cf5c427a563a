/** What came in and waits: at a bounded pace, and made worse on purpose where that was asked for. */
import { isFramed } from './datagram.js';

/** The pace: how many datagrams a second, and how many bytes; what waits; and seconds that may be saved up. Those from where no member has spoken
 * have a half of it. */
const PACE = 2_000, PACE_BYTES = 1 << 20, MOST_WAITING = 2_048, SAVED = 0.05;

/** @typedef {import('./origins.js').Origin} Origin */

/** A datagram that came in, from where, and what was done to it. `due` is in milliseconds of this page.
 * @typedef {{ bytes: Uint8Array, origin: Origin, due: number, isLost: boolean, isSecond: boolean }} Arrival */

export class Inbox {
  constructor() {
    /** Is called where something came in. */
    this.wake = () => {};
    /** @type {import('../../live/ui/types.js').Worse} */
    this.worse = { lose: 0, delay: 0, twice: 0, mix: false };
    /** In the order in which they are due.
     * @type {Arrival[]} */
    this.waiting = [];
    /** From elsewhere.
     * @type {Arrival[]} */
    this.strange = [];
    /** Whether a member speaks from there.
     * @type {(origin: Origin) => boolean} */
    this.knows = () => true;
    this.dropped = 0;
    this.bad = 0; // what was no datagram
    [this.budget, this.forStrange] = [SAVED, SAVED / 2];
    this.takenAt = performance.now();
  }

  /** A datagram came in: it is lost, delayed or doubled on purpose.
   * @param {Uint8Array} bytes @param {Origin} origin */
  take(bytes, origin) {
    const { lose, twice } = this.worse, now = performance.now();
    if (!isFramed(bytes)) this.bad += 1;
    else if (Math.random() < lose) this.put({ bytes, origin, due: now, isLost: true, isSecond: false });
    else {
      this.put({ bytes, origin, due: now + this.delay(), isLost: false, isSecond: false });
      if (Math.random() < twice) this.put({ bytes, origin, due: now + this.delay(), isLost: false, isSecond: true });
    }
    this.wake();
  }

  delay() {
    const { delay, mix } = this.worse;
    return delay + (mix ? Math.random() * Math.max(delay, 20) : 0);
  }

  /** @param {Arrival} arrival */
  put(arrival) {
    const queue = this.knows(arrival.origin) ? this.waiting : this.strange;
    let at = queue.length;
    while (at > 0 && queue[at - 1].due > arrival.due) at -= 1;
    queue.splice(at, 0, arrival);
    if (queue.length > MOST_WAITING) {
      queue.shift();
      this.dropped += 1;
    }
  }

  /** The next datagram whose delay is over, where the pace allows one, of members first.
   * @returns {Arrival | null} */
  next() {
    const now = performance.now(), passed = (now - this.takenAt) / 1000;
    this.budget = Math.min(SAVED, this.budget + passed);
    this.forStrange = Math.min(SAVED / 2, this.forStrange + passed / 2);
    this.takenAt = now;
    const queue = [this.waiting, ...this.forStrange > 0 ? [this.strange] : []].find(([first]) => first && first.due <= now);
    if (!queue || this.budget <= 0) return null;
    const [arrival] = queue.splice(0, 1), cost = Math.max(1 / PACE, arrival.bytes.length / PACE_BYTES);
    this.budget -= cost;
    if (queue === this.strange) this.forStrange -= cost;
    return arrival;
  }

  /** Milliseconds until there may be one. */
  pause() {
    const until = (/** @type {Arrival[]} */ [first], /** @type {number} */ budget) => (
      first ? Math.max(first.due - performance.now(), budget > 0 ? 0 : 1 - budget * 1000) : Infinity);
    return Math.min(until(this.waiting, this.budget), until(this.strange, Math.min(this.budget, 2 * this.forStrange)));
  }
}
