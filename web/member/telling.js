/** What a member tells the board: what changed on the page, the pages, who is there, what is missing and what goes by. `live/telling.py`
 * once more. */
import { COLUMNS } from './board.js';
import { Reported } from './reported.js';
import { Showing } from './showing.js';
import { erasedFieldsOf, fieldsOf, nameOf, orderOfPages } from './views.js';

/** @typedef {import('./views.js').Drawop} Drawop */

/** The least milliseconds between two updates of the page, which take one part in this many of the time at most. */
const LEAST_PAUSE = 15, PART = 6;

/** Milliseconds between two tellings of who is there, and of the pages. */
const MEMBERS_PAUSE = 500, PAGES_PAUSE = 100;

/** The most pages of which it remembers what they show, so that one who turns back sees them at once. */
const MOST_SHOWINGS = 16;

const MOST_PAGES = 1_000, MOST_MEMBERS = 500;

/** Microseconds of a second, and for how many the page says that it has caught up. */
const SECOND = 1_000_000, CAUGHT_UP = 60 * SECOND;

/** Marks of a report that are taken note of, as many as a host tells. */
const MARKS = 64;

/** One cell in this many is kept for deletes and restores of members, as the host has it; and the percentage of taken cells from which on the
 * board is said to become full. */
const RESERVE = 32, NEARLY_FULL = 80;

export class Telling {
  /** @param {import('./member.js').Member} member @param {(name: string, news: any) => void} post */
  constructor(member, post) {
    this.member = member;
    this.post = post;
    this.isChanged = true;
    this.arePagesChanged = true;
    this.nextAt = this.nextMembers = this.nextPages = 0;
    this.hello = '';
    /** What the board has.
     * @type {Showing | null} */
    this.page = null;
    /** @type {Map<string, Showing>} */
    this.showings = new Map();
    /** That told these.
     * @type {import('./host.js').Host | null} */
    this.host = null;
    /** What tells it from others. */
    this.mark = 0;
    /** @type {string[]} */
    this.rows = [];
    /** @type {Map<string, number>} */
    this.caughtUp = new Map();
    /** @type {Set<string>} */
    this.missing = new Set();
    this.reported = new Reported();
  }

  /** Milliseconds until an update is due. */
  pause() {
    const moments = [this.nextMembers, ...this.isChanged ? [this.nextAt] : [], ...this.arePagesChanged ? [this.nextPages] : []];
    return Math.max(0, Math.min(...moments) - performance.now());
  }

  /** Tells what has changed, where the last time is long enough ago. */
  async tell() {
    const began = performance.now(), entries = this.member.wire.taken();
    this.tellHello();
    if (entries.length) this.post('wire', { entries });
    if (this.isChanged && began >= this.nextAt) {
      this.isChanged = false;
      await this.tellBoard();
      const ended = performance.now();
      this.nextAt = ended + Math.max(LEAST_PAUSE, (PART - 1) * (ended - began));
    }
    if (this.arePagesChanged && began >= this.nextPages) {
      this.arePagesChanged = false;
      await this.tellPages();
      this.nextPages = performance.now() + PAGES_PAUSE;
    }
    if (began >= this.nextMembers) {
      this.tellMembers();
      this.tellHealth();
      this.nextMembers = performance.now() + MEMBERS_PAUSE;
    }
  }

  tellHello() {
    const { me, isReady, inbox, transport, options, board, judging } = this.member;
    const hello = { me, mode: transport.where, notice: options.notice, ready: isReady, teach: options.teach, worsen: inbox.worse, cells: board.cells,
      twin: judging.hasTwin, broken: Boolean(board.record.fault) };
    const text = JSON.stringify(hello);
    if (text !== this.hello) this.post('hello', hello);
    this.hello = text;
  }

  // ---- the page

  /** The whole of another page, and of one of which another host shows something else; and of the same what changed since. */
  async tellBoard() {
    const { page, drawn, board } = this.member, rows = await board.canvas(page), showing = this.showing(page);
    let change = await showing.renew(board, drawn.sheet(page));
    if (this.page !== showing && showing.isAs(this.page)) [this.page, change] = [showing, { before: [], added: [], hidden: [] }];
    if (this.page !== showing) {
      this.post('board', whole(showing, rows));
      [this.page, this.arePagesChanged, this.nextMembers, this.nextPages] = [showing, true, 0, 0];
    } else if (Object.values(change).some(({ length }) => length) || rows.length !== this.rows.length || rows.some((row, y) => row !== this.rows[y])) {
      this.post('change', this.toldChange(page, change, rows));
    }
    this.rows = rows;
  }

  /** What a page shows, by the host of now.
   * @param {string} page */
  showing(page) {
    this.lookAtHost();
    const showing = this.showings.get(page) ?? new Showing(page);
    this.showings.delete(page);
    this.showings.set(page, showing);
    if (this.showings.size > MOST_SHOWINGS) this.showings.delete([...this.showings.keys()][0]);
    return showing;
  }

  /** What another host told is forgotten. */
  lookAtHost() {
    const { host } = this.member.board;
    if (this.host !== host) [this.host, this.mark, this.showings] = [host, this.mark + 1, new Map()];
  }

  /** What a page shows otherwise than when this was asked last.
   * @param {string} page @param {string} last @returns {Promise<import('../../live/ui/types.js').PageNews>} */
  async newsOf(page, last) {
    const { board, drawn } = this.member;
    this.lookAtHost();
    const { mark } = this, [, told] = last.split('-'), isMore = last === `${mark}-${told}` && Number(told) <= drawn.total;
    const { held, hidden, shown } = await board.since(page, isMore ? Number(told) : 0), { drawops } = drawn.sheet(page);
    return { since: `${mark}-${held}`, whole: !isMore, names: hidden.map((name) => /** @type {[number, number]} */ ([Number(name.split(' ')[0]), Number(name.split(' ')[2])])),
      added: shown.map(([place, drawop]) => [place, fieldsOf(drawops.get(drawop.name) ?? drawop)]) };
  }

  /** What a page shows, which need not be in view: its drawings in the order of display, what was deleted, and its rows as the host paints them.
   * @param {string} page */
  async boardOf(page) {
    const { board, drawn } = this.member, showing = new Showing(page);
    await showing.renew(board, drawn.sheet(page));
    return whole(showing, await board.canvas(page));
  }

  /** A change for the board, with the rows that are other ones.
   * @param {string} page @param {import('./showing.js').Change} change @param {string[]} rows */
  toldChange(page, { before, added, hidden }, rows) {
    const others = rows.map((row, y) => /** @type {const} */ ([y, row])).filter(([y, row]) => row !== this.rows[y]);
    return { page, names: before.map(({ source, seq }) => [source, seq]), added: added.map(([at, drawop]) => [at, fieldsOf(drawop)]),
      hidden: hidden.map(erasedFieldsOf), rows: Object.fromEntries(others), height: rows.length };
  }

  // ---- what is noticed of what comes in, for people alone

  /** What a report of a member tells that is not held.
   * @param {string} page @param {[number, number][]} marks */
  notice(page, marks) {
    const { me, drawn } = this.member;
    this.reported.reports += 1;
    for (const [source, seq] of marks.slice(0, MARKS)) {
      if (source !== me && !drawn.holds(page, `${source} ${page} ${seq}`)) this.reported.tell({ source, page, seq });
    }
  }

  /** What became of a drawop, in the word of the host.
   * @param {import('./views.js').Name} name @param {string} fate */
  noticeFate(name, fate) {
    const { alarms, board } = this.member, { source } = name;
    if (fate === 'new') this.reported.come(name, board.strange.has(nameOf(name)));
    else if (fate === 'clash') alarms.warn(`two members draw with number ${source}: what they drew differs from member to member`);
    else if (fate === 'full') alarms.warn('the board is full: new drawops are not kept');
  }

  /** How many cells are left, where they are few. */
  noticeRoom() {
    const { drawn: { total }, board: { cells }, alarms } = this.member;
    if (total >= cells - Math.floor(cells / RESERVE)) alarms.warn(`the board is full: ${total} of ${cells} cells; deletes and restores alone have room`);
    else if (total * 100 >= cells * NEARLY_FULL) alarms.warn(`the board becomes full: ${total} of ${cells} cells are taken`);
  }

  // ---- what stands beside it

  /** The pages that are listed, in the order in which they were begun, so all members that hold the same number them alike; those of strangers alone
   * stand at the end. If there are more, the host says which. */
  async listed() {
    const { me, page, drawn, board } = this.member, drawnOn = drawn.drawnPages().map(([one]) => one), strange = drawn.strangePages(me, board.strange);
    const order = drawnOn.length > MOST_PAGES ? await board.pages(MOST_PAGES) : drawnOn, ours = order.filter((one) => !strange.has(one));
    const chosen = [...new Set([page, ...ours, ...this.reported.pages(), ...order])].slice(0, MOST_PAGES);
    /** What no member gave does not move a page of members.
     * @type {Map<string, Set<string>>} */
    const given = new Map();
    for (const name of board.strange) {
      const [, on] = name.split(' ');
      given.set(on, (given.get(on) ?? new Set()).add(name));
    }
    const begun = new Map(chosen.map((one) => [one, drawn.sheet(one).begunBy(given.get(one) ?? new Set())])), at = (/** @type {string} */ one) => begun.get(one) ?? Infinity;
    return chosen.sort((one, other) => Number(strange.has(one)) - Number(strange.has(other)) || (at(one) === at(other) ? orderOfPages(one, other) : at(one) - at(other)));
  }

  async tellPages() {
    const { page, drawn } = this.member, pages = await this.listed();
    this.post('pages', { page, pages: pages.map((one) => ({ page: one, drawn: drawn.count(one), last: String(drawn.sheet(one).last) })) });
  }

  tellMembers() {
    const { me, page, judging, board, digests } = this.member, now = board.now(), isUnknown = (/** @type {import('./heard.js').Other} */ { answered }) => Number(answered === null);
    const first = judging.present().sort(([one, its], [other, others]) => isUnknown(its) - isUnknown(others) || one - other).slice(0, MOST_MEMBERS);
    const told = first.sort(([one], [other]) => one - other).map(([member, { at, delay }]) => (
      { member, delay: delay === null ? null : delay / 1_000, heard: Math.round((now - at) / 100_000) / 10, holds: digests.of(member, page) }));
    this.post('members', { me, members: told });
  }

  tellHealth() {
    const { page, drawn, wire, inbox, board, transport } = this.member, missing = this.reported.awaited(page, drawn, board.strange);
    if (missing) this.missing.add(page);
    else if (this.missing.delete(page)) this.caughtUp.set(page, board.now());
    const { dropped, bad } = inbox, told = wire.counts;
    const counts = { ...told, in: told.in + bad, refused: told.refused + bad, dropped, foreign: transport.foreign ?? 0, starts: 1 + board.ends.length };
    const phrase = transport.state || this.phrase(missing);
    this.post('health', { page, phrase, missing, taken: drawn.total, cells: board.cells, warnings: this.warnings(), counts, carried: !transport.state });
  }

  /** What lasts comes after what goes. */
  warnings() {
    const { alarms, judging, me, board } = this.member;
    const twin = judging.hasTwin ? `another member has our number ${me}: nothing is drawn until this member has a new one` : '';
    const broken = board.record.fault && `${board.record.fault}: nothing is drawn until there is room`;
    return [...alarms.told(), twin, broken].filter(Boolean);
  }

  /** The health of the page in one phrase.
   * @param {number} missing */
  phrase(missing) {
    if (missing) return `${missing} missing`;
    const now = this.member.board.now(), passed = now - (this.caughtUp.get(this.member.page) ?? -CAUGHT_UP);
    if (passed < CAUGHT_UP) return `caught up ${Math.floor(passed / SECOND)} s ago`;
    return this.member.judging.present().length ? 'whole' : 'whole; nobody else is heard';
  }
}

/** All of a page.
 * @param {Showing} showing @param {string[]} rows */
function whole({ page, shown, hidden }, rows) {
  return { page, columns: COLUMNS, rows, drawops: shown.map(fieldsOf), hidden: [...hidden.values()].map(erasedFieldsOf) };
}
