/** The datagrams as they go by, in words, and which request a repair answers: `live/wire.py` once more. */
/** @typedef {import('../../live/ui/types.js').Entry} Entry */

/** Characters of a datagram that are shown, requests that are remembered, and entries that wait for an update. */
const MOST_CHARACTERS = 400, MOST_REMEMBERED = 1_024, MOST_ENTRIES = 600;

/** @typedef {import('./datagram.js').Datagram} Datagram */

/** What came in: from where, and what was done to it on purpose.
 * @typedef {{ origin: import('./origins.js').Origin, isLost: boolean, isSecond: boolean }} Came */

export class Wire {
  constructor() {
    this.began = performance.now();
    this.last = 0;
    /** Which member sends from a place.
     * @type {Map<string, number>} */
    this.places = new Map();
    /** @type {Map<string, number>} */
    this.requests = new Map();
    this.counts = { in: 0, out: 0, lost: 0, twice: 0, refused: 0, requests: 0, repairs: 0 };
    /** What was not told yet.
     * @type {Entry[]} */
    this.entries = [];
  }

  /** A member sends from a place.
   * @param {string} place @param {number} member */
  learn(place, member) {
    if (!place) return;
    if (this.places.size >= MOST_REMEMBERED) this.places.clear();
    this.places.set(place, member);
  }

  /** @param {'in' | 'out'} way @param {Datagram | null} datagram @param {string} [place] @returns {Entry} */
  entry(way, datagram, place = '') {
    this.last += 1;
    const { kind, words, speaker, name } = datagram ?? { kind: 'bad', words: '', speaker: null, name: '' };
    return {
      id: this.last, at: Math.round(performance.now() - this.began) / 1000, way, kind,
      words: words.length > MOST_CHARACTERS ? `${words.slice(0, MOST_CHARACTERS)} ..` : words,
      member: speaker, name: name || null, answers: kind === 'draw' ? this.requests.get(name) ?? null : null,
      lost: false, twice: false, refused: null, by: this.places.get(place) ?? null,
    };
  }

  /** A datagram came in, and what became of it.
   * @param {Datagram | null} datagram @param {Came} arrival @param {string | null} refused */
  came(datagram, { origin: { place }, isLost, isSecond }, refused) {
    this.counts.in += 1;
    this.counts.lost += Number(isLost);
    this.counts.twice += Number(isSecond);
    this.tell({ ...this.entry('in', datagram, place), lost: isLost, twice: isSecond, refused });
  }

  /** A datagram went out.
   * @param {Datagram | null} datagram */
  went(datagram) {
    const entry = this.entry('out', datagram);
    this.counts.out += 1;
    this.counts.requests += Number(entry.kind === 'request');
    this.counts.repairs += Number(entry.answers !== null);
    this.tell(entry);
  }

  /** @param {Entry} entry */
  tell(entry) {
    this.counts.refused += Number(entry.refused !== null);
    if (entry.kind === 'request' && entry.name && !entry.lost && !this.requests.has(entry.name)) {
      this.requests.set(entry.name, entry.id);
      if (this.requests.size > MOST_REMEMBERED) this.requests.delete([...this.requests.keys()][0]);
    }
    this.entries.push(entry);
    if (this.entries.length > MOST_ENTRIES) this.entries.shift();
  }

  /** What views do not have yet. */
  taken() {
    const entries = this.entries;
    this.entries = [];
    return entries;
  }
}
