/** What this member drew last on a page, before a pause. If that is lost, no later drawing shows the gap, and the others learn of it from a report,
 * seconds later. So it is sent once more, as TCP sends the end of a flight (RFC 8985), unless something has told of it meanwhile.
 * `live/tails.py` once more, which says why by these numbers. */

const SECOND = 1_000_000;

/** Microseconds from a drawing until it is sent once more, and until it is sent a last time. */
export const WAITS = [SECOND / 4, SECOND];

/** The last time is left out unless somebody has asked for a drawing in the last minute. */
const LATELY = 60 * SECOND;

/** Pages of which the last drawing waits; of more, the one that was drawn on first goes. */
const MOST_PAGES = 16;

/** The last drawing of ours on a page, its datagram, when we drew it, and how often it was sent again.
 * @typedef {{ page: string, seq: number, bytes: Uint8Array, drawnAt: number, repeated: number }} Tail */

/** @param {Tail} tail */
const dueOf = ({ drawnAt, repeated }) => drawnAt + WAITS[repeated];

/** Those of one number, one for each page. */
export class Tails {
  /** @param {number} me */
  constructor(me) {
    this.me = me;
    /** @type {Map<string, Tail>} */
    this.tails = new Map();
    this.askedAt = -Infinity; // when somebody last asked for a drawing
  }

  /** A drawing of ours was sent. The one before it on that page is no tail any more: the new one shows the gap.
   * @param {{ page: string, seq: number }} drawing @param {Uint8Array} bytes @param {number} now */
  drew({ page, seq }, bytes, now) {
    this.tails.delete(page);
    this.tails.set(page, { page, seq, bytes, drawnAt: now, repeated: 0 });
    if (this.tails.size > MOST_PAGES) this.tails.delete([...this.tails.keys()][0]);
  }

  /** Something was lost: we ask for it, or another member does.
   * @param {number} now */
  asked(now) {
    this.askedAt = now;
  }

  /** Others hear this datagram of a member too. If it asks for a tail, brings it or reports it, they know of it without us.
   * @param {import('./datagram.js').Datagram} datagram @param {number} now */
  hear({ kind, page, name, marks }, now) {
    if (kind === 'request') this.asked(now);
    const [source, at, number] = name.split(' ');
    if (name && Number(source) === this.me) this.end(at, Number(number));
    else this.end(page, marks.find(([marked]) => marked === this.me)?.[1] ?? 0);
  }

  /** The others know that we drew this number.
   * @param {string} page @param {number} number */
  end(page, number) {
    const tail = this.tails.get(page);
    if (tail && tail.seq <= number) this.tails.delete(page);
  }

  /** When one is to be sent again. */
  due() {
    return this.tails.size ? Math.min(...[...this.tails.values()].map(dueOf)) : null;
  }

  /** The datagrams that are to be sent again now.
   * @param {number} now */
  take(now) {
    const due = [...this.tails.values()].filter((tail) => dueOf(tail) <= now), isLossy = now - this.askedAt <= LATELY;
    const taken = due.filter(({ repeated }) => !repeated || isLossy);
    for (const tail of due) {
      tail.repeated += 1;
      if (!taken.includes(tail) || tail.repeated === WAITS.length) this.tails.delete(tail.page);
    }
    return taken.map(({ bytes }) => bytes);
  }
}
