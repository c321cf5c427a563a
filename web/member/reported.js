/** Names that members reported and that are not held: what is missing beside the gaps. And what of all that was asked for in vain. */
import { nameOf } from './views.js';

/** @typedef {import('./views.js').Name} Name */

/** Names that are remembered, of which the oldest go first. */
export const MOST_REPORTED = 512;

/** A page is asked for once more if a request for something of it goes out after another report of a member. What was asked for first so often ago, and
 * of whose source nothing has come since, nobody here has. */
export const IN_VAIN = 16;

/** A source and a page by the name of a drawop.
 * @param {string} name */
const rowOf = (name) => name.slice(0, name.lastIndexOf(' '));

export class Reported {
  constructor() {
    /** @type {Map<string, Name>} */
    this.names = new Map();
    this.reports = 0; // of members
    /** How often a page was asked for, and how many reports had come at the last.
     * @type {Map<string, { often: number, reports: number }>} */
    this.asked = new Map();
    /** How often it had been when something of a source was asked for of which nothing came since, by source and page.
     * @type {Map<string, number>} */
    this.since = new Map();
  }

  /** @param {Name} name */
  tell(name) {
    this.names.delete(nameOf(name));
    this.names.set(nameOf(name), name);
    if (this.names.size > MOST_REPORTED) this.names.delete([...this.names.keys()][0]);
  }

  /** It is held from now on. What no member gave answers no request.
   * @param {Name} name @param {boolean} [isStrange] */
  come(name, isStrange = false) {
    this.names.delete(nameOf(name));
    if (!isStrange) this.since.delete(rowOf(nameOf(name)));
  }

  /** It is asked for. Between two reports one request counts: where nobody is heard, nobody could answer.
   * @param {string} name */
  ask(name) {
    const row = rowOf(name), [, page] = row.split(' '), { often, reports } = this.asked.get(page) ?? { often: 0, reports: -1 };
    this.asked.delete(page);
    this.asked.set(page, { often: often + Number(reports < this.reports), reports: this.reports });
    if (!this.since.has(row)) this.since.set(row, often);
    for (const kept of [this.asked, this.since]) if (kept.size > MOST_REPORTED) kept.delete([...kept.keys()][0]);
  }

  /** @param {number} source @param {string} page */
  isInVain(source, page) {
    return (this.asked.get(page)?.often ?? 0) - (this.since.get(`${source} ${page}`) ?? Infinity) >= IN_VAIN;
  }

  pages() {
    return [...this.names.values()].map(({ page }) => page);
  }

  /** How many names of a page are missing: those in its gaps, and those above.
   * @param {string} page @param {import('./drawn.js').Drawn} drawn */
  missing(page, drawn) {
    return drawn.missing(page) + [...this.names.values()].filter((name) => name.page === page && name.seq > drawn.top(page, name.source)).length;
  }

  /** How many of these people wait for. A stranger may have taken any number: none is below what no member gave. And none was asked for in vain.
   * @param {string} page @param {import('./drawn.js').Drawn} drawn @param {Set<string>} strange */
  awaited(page, drawn, strange) {
    const gaps = drawn.gaps(page, strange);
    const above = [...this.names].filter(([name, { page: on, source, seq }]) => on === page && seq > (gaps.get(source)?.top ?? 0) && !drawn.holds(page, name));
    const missing = [...[...gaps].map(([source, { many }]) => ({ source, many })), ...above.map(([, { source }]) => ({ source, many: 1 }))];
    return missing.reduce((sum, { source, many }) => sum + (this.isInVain(source, page) ? 0 : many), 0);
  }
}
