/** What people do: they draw, delete, turn pages, and take a new number. All of it is done in a turn of the member. `live/people.py` once more. */
import { NoRoom } from './board.js';
import { pointOf, writePoint } from './presence.js';

const OPERATIONS = ['line', 'frame', 'text', 'delete', 'restore'];

/** `NOW PAGE` stands before an operation: the place of a wrong word is counted without them. */
const WORDS_BEFORE = 2;

/** Drawings that wait until the member may draw. */
const MOST_WAITING = 1_024;

/** Numbers of pages. */
const MOST_PAGE = 2 ** 32 - 1;

/** The page of names, titles and the chat; what is drawn elsewhere leaves it, and deletes and restores, one cell in this many. */
const WORDS = '0/0', KEPT = 16;

/** Lines of the record that say who owns numbers, and at which point names are numbers. */
const OWNERS = /^(?:owner|# names) /;

/** Why nothing is drawn. */
const TWIN = 'another member has our number: take a new one';

/** A drawing or a page is refused, and why. */
export class Refused extends Error {}

/** A drawing that somebody waits for.
 * @typedef {{ done: (told: { source: number, seq: number }) => void, fail: (fault: Error) => void }} Waiting */

/** @param {string} why */
const noRoom = (why) => new Refused(`${why}: nothing is drawn until there is room`);

export class People {
  /** @param {import('./member.js').Member} member */
  constructor(member) {
    this.member = member;
    /** What is to be done in the next turn.
     * @type {(() => Promise<void>)[]} */
    this.calls = [];
    /** What waits to be drawn.
     * @type {(Waiting & { page: string, operation: string })[]} */
    this.draws = [];
  }

  /** Has something done in a turn.
   * @template T @param {() => Promise<T>} what @returns {Promise<T>} */
  call(what) {
    return new Promise((done, fail) => {
      this.calls.push(() => what().then(done, fail));
      this.member.wake();
    });
  }

  /** Has an operation drawn, such as `line 0 0 4 4 *`, as soon as the member may draw.
   * @param {string} page @param {string} operation @returns {Promise<{ source: number, seq: number }>} */
  draw(page, operation) {
    return new Promise((done, fail) => {
      this.calls.push(async () => {
        if (this.member.isReady || this.draws.length < MOST_WAITING) this.draws.push({ page, operation, done, fail });
        else fail(new Refused('busy'));
      });
      this.member.wake();
    });
  }

  /** Draws what waits. Once all of it is on the disk, it is sent; what the disk does not take is not drawn. */
  async drawAll() {
    if (!this.member.isReady || !this.draws.length) return;
    const { member, member: { judging, board } } = this;
    /** @type {(Waiting & { drawop: import('./views.js').Drawop })[]} */
    const drawn = [];
    /** @type {Uint8Array[]} */
    const unsent = [];
    for (const { page, operation, done, fail } of this.draws.splice(0)) {
      await this.drawNow(page, operation, unsent).then((drawop) => { drawn.push({ drawop, done, fail }); }, fail);
    }
    const kept = await board.settle(drawn.map(({ drawop }) => drawop)), settled = new Map(kept.map((drawop) => [drawop.name, drawop]));
    for (const bytes of kept.length === drawn.length ? unsent : []) {
      const datagram = member.send(bytes), drawop = datagram?.kind === 'draw' ? settled.get(datagram.name) : null;
      if (drawop) judging.tails.drew(drawop, bytes, board.moment);
    }
    for (const { drawop, done, fail } of drawn) {
      if (settled.has(drawop.name)) done({ source: member.me, seq: drawop.seq });
      else fail(noRoom(board.record.fault));
    }
  }

  /** Accepts a drawop of ours. Whether it is one, the host says.
   * @param {string} page @param {string} operation @param {Uint8Array[]} unsent gets what the host sends */
  async drawNow(page, operation, unsent) {
    const { member } = this, { judging, board } = member, [kind] = operation.split(' ', 1), isFull = member.drawn.total >= board.cells - Math.floor(board.cells / KEPT);
    if (isFull && page !== WORDS && ['line', 'frame', 'text'].includes(kind)) throw new Refused('full');
    if (!OPERATIONS.includes(kind) || !/^[ -~]*$/.test(operation)) throw new Refused('unknown');
    if (judging.hasTwin) throw new Refused(TWIN);
    unsent.push(...(await board.tellTime()).send);
    const { block, drawop } = await board.draw(page, operation).catch((fault) => { throw fault instanceof NoRoom ? noRoom(fault.message) : fault; });
    unsent.push(...block.sent());
    if (block.fault !== null) throw new Refused(block.fault.replace(/^(word )(\d+)/, (_all, word, place) => word + (Number(place) - WORDS_BEFORE)));
    if (drawop === null) throw new Refused('full');
    return drawop;
  }

  /** Makes this the page in view; null is a new one of ours, or the one in view where that is ours and empty yet.
   * @param {string | null} page */
  async choose(page) {
    this.member.turnTo(page ?? this.newPage());
    return { page: this.member.page };
  }

  /** The number of a new page is the first that nobody told of. */
  newPage() {
    const { me, page, drawn, telling } = this.member, ours = (/** @type {string} */ one) => one.startsWith(`${me}/`);
    if (ours(page) && !drawn.count(page)) return page;
    const used = new Set([...drawn.drawnPages().map(([one]) => one), ...telling.reported.pages(), page].filter(ours).map((one) => Number(one.split('/')[1])));
    let number = 1;
    while (used.has(number)) number += 1;
    return `${me}/${Math.min(number, MOST_PAGE)}`;
  }

  /** Tells others where one points, by a datagram that no host hears of.
   * @param {string} page @param {any} cell @param {any} begun */
  async point(page, cell, begun) {
    const point = pointOf(this.member.me, page, cell, begun);
    if (!point) throw new Refused('no point');
    this.member.transport.send(writePoint(point));
    return {};
  }

  /** Changes how the network is made worse.
   * @param {import('../../live/ui/types.js').Worse} worse */
  async worsen(worse) {
    const { inbox } = this.member;
    inbox.worse = { ...inbox.worse, ...worse };
    return { ...worse };
  }

  /** The record, as a text. Who owns numbers is left out: no other program knows owners by these. */
  async record() {
    const lines = (await this.member.board.record.lines()).filter((line) => !OWNERS.test(line));
    return { text: lines.map((line) => `${line}\n`).join('') };
  }
}
