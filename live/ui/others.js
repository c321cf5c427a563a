/** Where others point, and what they draw before they let go. Datagrams of the driver's own carry it: nobody repairs or keeps it. */
import { spell } from './cells.js';
import { $ } from './dom.js';
import { SANS } from './inkfonts.js';
import { itemsOfShapes } from './inkghosts.js';
import { initialsOf } from './notes.js';
import { readBeside } from './points.js';

/** @typedef {import('./types.js').Pointed} Pointed */
/** @typedef {import('./types.js').Shape} Shape */
/** @typedef {import('./whiteboard.js').Whiteboard} Whiteboard */
/** What was heard last of a member, when it became so, and the items of what it has begun.
 * @typedef {{ heardAt: number, pointed: Pointed, beside: import('./points.js').Beside, items: import('./inkitems.js').Item[] }} Point */

/** Milliseconds between two tellings, at least, and after which one that is not heard points nowhere. */
const PAUSE = 60, STAYS = 4000;

/** Lines of what is begun that are sent, and texts of ink: as many as a datagram has room for. */
const MOST_BEGUN = 12, MOST_INKS = 7;

/** Members whose last points are remembered, and cells of what they have begun that are painted in a frame. */
const MOST_POINTS = 256, MOST_CELLS = 4_000;

/** Where the page keeps whether this is sent. */
const KEPT = 'wb-pointing';

/** The corners of a pointer, and points from it to the middle of its label. */
const ARROW = [[0, 0], [4.5, 15], [8, 9], [15, 8]], LABEL = { x: 12, y: 15, high: 21 };

export class Others {
  /** @param {Whiteboard} board */
  constructor(board) {
    this.board = board;
    /** Who is there to be heard.
     * @type {Point[]} */
    this.heard = [];
    /** What each member told last.
     * @type {Map<number, Point>} */
    this.points = new Map();
    this.isTold = localStorage.getItem(KEPT) !== 'off';
    this.timer = 0;
    this.last = '';
    board.session.on('presence', ({ others }) => this.take(others));
    board.view.onMove(() => this.soon());
    board.painter.over = () => this.paint();
    $('pointing').checked = this.isTold;
    $('pointing').addEventListener('change', () => this.setTold($('pointing').checked));
  }

  /** Whether others hear of what is pointed at.
   * @param {boolean} is */
  setTold(is) {
    this.isTold = $('pointing').checked = is;
    localStorage.setItem(KEPT, is ? 'on' : 'off');
    this.soon();
  }

  /** @param {Pointed[]} others */
  take(others) {
    const now = performance.now();
    this.heard = others.map((pointed) => {
      const was = this.points.get(pointed.member), isSame = others.length > 1 && JSON.stringify(was?.pointed) === JSON.stringify(pointed);
      if (was && isSame) return was;
      const beside = readBeside(pointed.begun);
      return { heardAt: now, pointed, beside, items: itemsOfShapes(beside.shapes, pointed.member) };
    });
    this.heard.forEach((point) => this.keep(point));
    setTimeout(() => this.board.painter.soon(), STAYS + 50);
    this.board.painter.soon();
  }

  /** @param {Point} point */
  keep(point) {
    this.points.delete(point.pointed.member);
    this.points.set(point.pointed.member, point);
    if (this.points.size > MOST_POINTS) this.points.delete([...this.points.keys()][0]);
  }

  /** The page that a member was heard to look at last, or ''.
   * @param {number} member */
  pageOf(member) {
    return this.points.get(member)?.pointed.page ?? '';
  }

  /** Who follows a member, of those that are heard.
   * @param {number} member */
  followersOf(member) {
    return this.heard.filter(({ beside }) => beside.follows === member).map(({ pointed }) => pointed.member);
  }

  /** Tells the same again. */
  again() {
    this.last = '';
    this.soon();
  }

  /** Something of the hand has changed: tells it, not too often. */
  soon() {
    if (this.board.session.member.point) this.timer ||= setTimeout(() => this.tell(), PAUSE);
  }

  /** What is begun, in words: of a stroke what is not sent yet. */
  begun() {
    const { hand, pen, painter } = this.board;
    return (painter.isInk ? [...pen.ghosts(), ...hand.ghosts()].slice(-MOST_INKS) : hand.ghosts().slice(0, MOST_BEGUN)).map(spell);
  }

  tell() {
    const { session, hand, follow } = this.board, at = this.isTold ? hand.at() : null, { page } = session.board;
    this.timer = 0;
    const begun = [...(this.isTold ? follow.lines() : []), ...(at ? this.begun() : [])], text = JSON.stringify([page, at?.x, at?.y, begun]);
    if (text === this.last || !page) return;
    this.last = text;
    session.member.point?.(page, at ? [at.x, at.y] : null, begun);
  }

  /** What others of this page have begun, as far as a frame has room, and a mark with their initials or names where they point. */
  paint() {
    const { session, painter } = this.board, now = performance.now();
    const seen = this.heard.filter(({ heardAt, pointed: { page, cell } }) => page === session.board.page && cell && now - heardAt <= STAYS);
    if (painter.isInk) painter.ghosts.paintBegun(inTurn(seen.map(({ items }) => items)));
    else this.paintBegun(seen);
    for (const { pointed: { member, cell } } of seen) {
      const [x, y] = /** @type {[number, number]} */ (cell);
      if (painter.isInk) this.paintInk(member, x, y);
      else this.paintCells(member, x, y);
    }
  }

  /** By characters.
   * @param {Point[]} seen */
  paintBegun(seen) {
    const { painter } = this.board, { brush, cells } = painter;
    let left = MOST_CELLS;
    brush.globalAlpha = 0.6;
    for (const { shape, member } of inTurn(seen.map(({ pointed: { member }, beside }) => beside.shapes.map((shape) => ({ shape, member }))))) {
      if (left > 0) left -= cells.paintShape(shape, painter.tintOf(member));
    }
    brush.globalAlpha = 1;
  }

  /** @param {number} member @param {number} x @param {number} y */
  paintInk(member, x, y) {
    const { session, painter, view } = this.board, { brush } = painter, name = session.nameOf(member);
    const [px, py] = [view.pixelX(x) + view.wide / 2, view.pixelY(y) + view.high / 2];
    brush.fillStyle = painter.tintOf(member);
    brush.strokeStyle = painter.colours.paper;
    brush.lineWidth = 1.5;
    brush.beginPath();
    ARROW.forEach(([dx, dy]) => brush.lineTo(px + dx, py + dy));
    brush.closePath();
    brush.fill();
    brush.stroke();
    brush.font = `600 12px ${SANS}`;
    brush.beginPath();
    brush.roundRect(px + LABEL.x, py + LABEL.y, brush.measureText(name).width + 14, LABEL.high, LABEL.high / 2);
    brush.fill();
    brush.fillStyle = painter.colours.paper;
    brush.textAlign = 'left';
    brush.fillText(name, px + LABEL.x + 7, py + LABEL.y + LABEL.high / 2);
    painter.setFont(brush, view.size);
  }

  /** @param {number} member @param {number} x @param {number} y */
  paintCells(member, x, y) {
    const { session, painter, view } = this.board, { brush, cells } = painter, tint = painter.tintOf(member), label = initialsOf(session.called.get(member), member);
    cells.outline({ x, y }, { x, y }, tint);
    brush.font = `700 12px ${painter.font}`;
    const wide = brush.measureText(label).width + 8;
    brush.fillStyle = tint;
    brush.fillRect(view.pixelX(x + 1), view.pixelY(y + 1), wide, 16);
    brush.fillStyle = painter.colours.paper;
    brush.fillText(label, view.pixelX(x + 1) + wide / 2, view.pixelY(y + 1) + 8);
    painter.setFont(brush, view.size);
  }
}

/** Of some lists the last of each, and then all others, the latest first.
 * @template T @type {(lists: T[][]) => T[]} */
export function inTurn(lists) {
  const latest = lists.filter((list) => list.length).reverse();
  return [...latest.map((list) => list[list.length - 1]), ...latest.flatMap((list) => list.slice(0, -1))];
}
