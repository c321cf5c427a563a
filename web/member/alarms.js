/** Warnings: each is shown for a time, and then goes. `live/alarms.py` once more. */

/** Milliseconds for which a warning is shown after it was last given, and how many are shown. */
const LASTS = 60_000, MOST_TOLD = 8;

export class Alarms {
  constructor() {
    /** @type {Map<string, number>} */
    this.given = new Map();
  }

  /** @param {string} text */
  warn(text) {
    this.given.delete(text);
    this.given.set(text, performance.now());
  }

  /** The warnings of the last minute, the latest at the end. */
  told() {
    const end = performance.now() - LASTS;
    for (const [text, at] of this.given) if (at <= end) this.given.delete(text);
    return [...this.given.keys()].slice(-MOST_TOLD);
  }
}
