/** The drawops that the host holds, by page. What of them a page shows, the host says (showing.js). As `live/drawn.py`. */

import { aimedBy, isDrawing, nameOf } from './views.js';

/** Microseconds of a second. */
const SECOND = 1_000_000;

/** @typedef {import('./views.js').Drawop} Drawop */

/** One page: its drawops in the order in which they came. */
export class Sheet {
  constructor() {
    /** @type {Map<string, Drawop>} */
    this.drawops = new Map();
    /** The greatest number of each source.
     * @type {Map<number, number>} */
    this.tops = new Map();
    /** How many of each source.
     * @type {Map<number, number>} */
    this.counts = new Map();
    /** The least time of its drawops, and the greatest of what was drawn or restored. */
    this.begun = Infinity;
    this.last = 0;
    /** The deletes and restores of each drawing.
     * @type {Map<string, Drawop[]>} */
    this.aimed = new Map();
  }

  /** Whether it is new.
   * @param {Drawop} drawop */
  add(drawop) {
    const { name, source, seq } = drawop;
    if (this.drawops.has(name)) return false;
    this.drawops.set(name, drawop);
    this.begun = Math.min(this.begun, drawop.time);
    if (drawop.operation[0] !== 'delete') this.last = Math.max(this.last, drawop.time);
    if (!isDrawing(drawop)) this.aimed.set(aimedBy(drawop), [...this.aimed.get(aimedBy(drawop)) ?? [], drawop]);
    this.tops.set(source, Math.max(seq, this.tops.get(source) ?? 0));
    this.counts.set(source, 1 + (this.counts.get(source) ?? 0));
    return true;
  }

  /** The delete that took a drawing away: the first after its last restore.
   * @param {string} name @returns {Drawop | null} */
  eraser(name) {
    const words = [...this.aimed.get(name) ?? []].sort((a, b) => a.time - b.time || a.source - b.source || a.seq - b.seq);
    return words.reduce((/** @type {Drawop | null} */ found, drawop) => (drawop.operation[0] === 'restore' ? null : found ?? drawop), null);
  }

  /** What the source of a delete did just before it here, if that was within a second, and is not what it takes back.
   * @param {Drawop} drawop */
  before(drawop) {
    const { source, page, seq, time } = drawop, found = this.drawops.get(nameOf({ source, page, seq: seq - 1 }));
    const isBack = found?.operation[0] === 'restore' && aimedBy(found) === aimedBy(drawop);
    return found && time - found.time <= SECOND && !isBack ? found : null;
  }

  /** What its source did next here.
   * @param {Drawop} drawop */
  after({ source, page, seq }) {
    return this.drawops.get(nameOf({ source, page, seq: seq + 1 }));
  }

  /** The time of its first drawop that has none of these names; of a page that has no other, that of its first.
   * @param {Set<string>} names */
  begunBy(names) {
    const times = names.size ? [...this.drawops.values()].filter(({ name }) => !names.has(name)).map(({ time }) => time) : [];
    return times.length ? times.reduce((least, time) => Math.min(least, time)) : this.begun;
  }

  /** Whether all that is held is among these names.
   * @param {Set<string>} names */
  isOf(names) {
    for (const name of this.drawops.keys()) if (!names.has(name)) return false;
    return true;
  }
}

/** All pages that have drawops, and how many drawops of each source there are. */
export class Drawn {
  constructor() {
    /** @type {Map<string, Sheet>} */
    this.pages = new Map();
    this.total = 0;
  }

  /** @param {Drawop} drawop */
  add(drawop) {
    const sheet = this.sheet(drawop.page);
    this.pages.set(drawop.page, sheet);
    if (sheet.add(drawop)) this.total += 1;
  }

  /** A page. One that has nothing is not remembered, however many are looked at.
   * @param {string} page */
  sheet(page) {
    return this.pages.get(page) ?? new Sheet();
  }

  /** @param {string} page @param {string} name */
  holds(page, name) {
    return this.pages.get(page)?.drawops.has(name) ?? false;
  }

  /** A drawop by its name.
   * @param {string} name */
  find(name) {
    return this.pages.get(name.split(' ')[1])?.drawops.get(name) ?? null;
  }

  /** The greatest number of a source that is held of a page; 0 if there is none.
   * @param {string} page @param {number} source */
  top(page, source) {
    return this.pages.get(page)?.tops.get(source) ?? 0;
  }

  /** @param {string} page */
  count(page) {
    return this.pages.get(page)?.drawops.size ?? 0;
  }

  /** The pages that have drawops. */
  drawnPages() {
    return [...this.pages].filter(([, { drawops }]) => drawops.size);
  }

  /** The pages on which no member has drawn.
   * @param {number} me @param {Set<string>} strange the names of what no member gave */
  strangePages(me, strange) {
    return new Set(this.drawnPages().filter(([, sheet]) => !sheet.tops.has(me) && sheet.isOf(strange)).map(([page]) => page));
  }

  /** How many numbers of a page are missing below the greatest that is held of each source.
   * @param {string} page */
  missing(page) {
    const sheet = this.pages.get(page);
    return sheet ? [...sheet.tops.values()].reduce((sum, top) => sum + top, 0) - sheet.drawops.size : 0;
  }

  /** Of each source the greatest number of a page that is none of these names, and how many below it are missing.
   * @param {string} page @param {Set<string>} strange
   * @returns {Map<number, { top: number, many: number }>} */
  gaps(page, strange) {
    const { tops, counts, drawops } = this.sheet(page), gaps = new Map([...tops].map(([source, top]) => [source, { top, many: top - (counts.get(source) ?? 0) }]));
    /** @type {Map<number, number[]>} */
    const held = new Map([...tops].filter(([source, top]) => strange.has(`${source} ${page} ${top}`)).map(([source]) => [source, []]));
    if (held.size) for (const { source, seq } of drawops.values()) held.get(source)?.push(seq);
    for (const [source, numbers] of held) {
      const top = numbers.filter((seq) => !strange.has(`${source} ${page} ${seq}`)).reduce((most, seq) => Math.max(most, seq), 0);
      gaps.set(source, { top, many: top - numbers.filter((seq) => seq <= top).length });
    }
    return gaps;
  }

  /** @returns {Drawop[]} */
  all() {
    return [...this.pages.values()].flatMap(({ drawops }) => [...drawops.values()]);
  }
}
