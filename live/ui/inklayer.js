/** The page as ink: its items, and pictures of the parts in view. Both are made a few milliseconds a frame, so no page, however full, holds a
 * frame up. */
import { Grid } from './grid.js';
import { meets } from './inkfind.js';
import { Items } from './inkitems.js';
import { InkPaint } from './inkpaint.js';
import { CELL_WIDE } from './inksigns.js';
import { WORK, workOf } from './inkwork.js';

/** @typedef {import('./types.js').Drawing} Drawing */
/** @typedef {import('./session.js').Taken} Taken */
/** @typedef {import('./inkitems.js').Item} Item */
/** @typedef {import('./inkpaint.js').Box} Box */
/** The picture of a part of the page at one size: what of it is shown, the one that is painted, and the items that are still to be
 * painted in it; null where it is to be begun anew.
 * @typedef {{ wide: number, x: number, y: number, box: Box, shown: HTMLCanvasElement | null, canvas: HTMLCanvasElement | null,
 *   todo: Item[] | null }} Picture */

/** Points of a side of a picture; milliseconds of a frame in which items are taken and painted. */
const TILE = 256, BUDGET = 7;

/** Drawings that go, or come, between two looks at the clock. */
const TAKEN_AT_ONCE = 100;

/** Pictures that are kept, and for how many milliseconds the size must stay before they are painted in it. */
const MOST_PICTURES = 240, SETTLED = 110;

/** What is painted may reach this many points over the edge of what is in its box. */
const EDGE = 2;

export class InkLayer {
  /** @param {import('./painter.js').Painter} painter */
  constructor(painter) {
    this.painter = painter;
    this.paints = new InkPaint(painter);
    this.kept = new Items();
    this.grid = new Grid();
    /** Those that have letters, for who listens.
     * @type {Set<Item>} */
    this.lettered = new Set();
    /** Changes that are not taken yet, in order.
     * @type {{ gone: Drawing[], added: Drawing[] }[]} */
    this.waiting = [];
    /** By size and place, the latest last.
     * @type {Map<string, Picture>} */
    this.pictures = new Map();
    /** The size of the pictures, and the size before, whose pictures stand until there are new ones. */
    this.wide = 0;
    this.before = 0;
    this.timer = 0;
    this.look = 0;
    /** What may still be painted in this frame. */
    this.work = 0;
    /** Called when items have come or gone.
     * @type {() => void} */
    this.changed = () => {};
  }

  /** The items that are taken, in the order of painting. */
  get items() {
    return this.kept.list;
  }

  /** The items that can leave a mark in a box, in the order of painting.
   * @param {Box} box */
  itemsIn(box) {
    return this.grid.within(box, this.items).filter((item) => meets(item, box));
  }

  /** What became of the page. A small change is taken at once; of others as much as a frame has time for, and more in the next ones.
   * @param {Taken} taken */
  take({ isTurned, gone, added }) {
    if (isTurned) {
      [this.waiting, this.before] = [[], 0];
      this.kept = new Items();
      this.grid = new Grid();
      this.lettered.clear();
      this.pictures.clear();
    }
    this.waiting.push({ gone: [...gone], added: [...added] });
    this.takeSome();
  }

  /** Takes what waits, until a time: by characters no ink is painted, but what is there is known.
   * @param {number} [end] */
  takeSome(end = performance.now() + BUDGET) {
    if (!this.waiting.length) return;
    while (this.waiting.length && performance.now() < end) {
      const [{ gone, added }] = this.waiting, isFull = gone.length > TAKEN_AT_ONCE;
      this.show(this.kept.change(gone.splice(0, TAKEN_AT_ONCE), isFull ? [] : added.splice(0, TAKEN_AT_ONCE)));
      if (!gone.length && !added.length) this.waiting.shift();
    }
    if (this.waiting.length) this.painter.soon();
    else this.changed();
  }

  /** Pictures that a change meets are painted anew; where it lies above all others, it is painted on top.
   * @param {{ gone: Item[], come: Item[] }} change */
  show({ gone, come }) {
    const { items, lettered } = this, areLast = gone.length === 0 && come.every((item, i) => items[items.length - come.length + i] === item);
    this.grid.change(gone, come);
    gone.forEach((item) => lettered.delete(item));
    come.forEach((item) => item.letters && lettered.add(item));
    for (const picture of this.pictures.values()) {
      const met = come.filter((item) => meets(item, picture.box));
      if (areLast && picture.todo) picture.todo.push(...met);
      else if (met.length || gone.some((item) => meets(item, picture.box))) picture.todo = null;
    }
  }

  /** Copies the pictures in view, and paints as much of those that are not done as a frame has time for. */
  paint() {
    const { painter } = this, { view } = painter.parts, end = performance.now() + BUDGET;
    if (this.look !== painter.look) this.pictures.clear();
    this.look = painter.look;
    this.takeSome(end);
    const isSettled = this.settle(), other = isSettled ? this.before : this.wide;
    if (other && other !== view.wide) this.stretch(other);
    const isDone = isSettled && this.paintInView(end);
    // pictures of another size were covered by paper, and so was the ground: one frame more has it
    if (isSettled && (!isDone || this.before)) painter.soon();
    if (isDone) this.before = 0;
  }

  /** Whether pictures are of the size in view: they are once it stays so for a moment. */
  settle() {
    const { view } = this.painter.parts, left = view.sizedAt + SETTLED - performance.now();
    if (this.wide !== view.wide && this.wide && left > 0) {
      clearTimeout(this.timer);
      this.timer = setTimeout(() => this.painter.soon(), left + 5);
    } else if (this.wide !== view.wide) [this.before, this.wide] = [this.wide, view.wide];
    return this.wide === view.wide;
  }

  /** Until there are pictures of this size those of another stand for them, larger or smaller.
   * @param {number} other */
  stretch(other) {
    const { brush, parts: { view } } = this.painter, side = (TILE * view.wide) / other, [left, top] = view.corner();
    brush.imageSmoothingEnabled = true;
    for (const { wide, x, y, shown } of this.pictures.values()) {
      const [px, py] = [x * side - left, y * side - top];
      if (shown && wide === other && px < view.width && py < view.height && px + side > 0 && py + side > 0) brush.drawImage(shown, px, py, side, side);
    }
  }

  /** Whether all pictures in view are done.
   * @param {number} end */
  paintInView(end) {
    const { brush, colours, parts: { view } } = this.painter, [left, top] = view.corner();
    let isDone = this.waiting.length === 0;
    this.work = WORK;
    brush.imageSmoothingEnabled = false;
    for (let y = Math.floor(top / TILE); y * TILE < top + view.height; y += 1) {
      for (let x = Math.floor(left / TILE); x * TILE < left + view.width; x += 1) {
        const picture = this.pictureAt(x, y), [px, py] = [x * TILE - left, y * TILE - top];
        if (!isWhole(picture) && this.work > 0 && performance.now() < end) this.paintSome(picture, end);
        isDone &&= isWhole(picture);
        if (this.before && (picture.shown || isWhole(picture))) {
          brush.fillStyle = colours.paper;
          brush.fillRect(px, py, TILE, TILE);
        }
        if (picture.shown) brush.drawImage(picture.shown, px, py, TILE, TILE);
      }
    }
    return isDone;
  }

  /** @param {number} x @param {number} y @returns {Picture} */
  pictureAt(x, y) {
    const { wide, pictures } = this, key = `${wide} ${x} ${y}`, unit = CELL_WIDE / wide, found = pictures.get(key);
    const box = { x0: (x * TILE - EDGE) * unit, y0: (y * TILE - EDGE) * unit, x1: ((x + 1) * TILE + EDGE) * unit, y1: ((y + 1) * TILE + EDGE) * unit };
    const picture = found ?? { wide, x, y, box, shown: null, canvas: null, todo: null };
    pictures.delete(key);
    pictures.set(key, picture);
    if (pictures.size > MOST_PICTURES) pictures.delete(/** @type {string} */ (pictures.keys().next().value));
    return picture;
  }

  /** Paints some items in a picture. What it showed before stays until all are painted.
   * @param {Picture} picture @param {number} end */
  paintSome(picture, end) {
    const { wide, x, y } = picture, ratio = devicePixelRatio, scale = (wide / CELL_WIDE) * ratio;
    if (!picture.todo) {
      picture.todo = this.itemsIn(picture.box);
      picture.canvas = null;
    }
    const { todo } = picture, canvas = picture.canvas ?? Object.assign(document.createElement('canvas'), { width: TILE * ratio, height: TILE * ratio });
    const brush = /** @type {CanvasRenderingContext2D} */ (canvas.getContext('2d'));
    let at = 0;
    brush.setTransform(scale, 0, 0, scale, -x * TILE * ratio, -y * TILE * ratio);
    for (; at < todo.length && this.work > 0 && performance.now() < end; at += 1) {
      this.paints.paint(brush, todo[at], { wide, isPicture: true, box: picture.box });
      this.work -= workOf(todo[at]);
    }
    todo.splice(0, at);
    picture.canvas = at || picture.canvas ? canvas : null;
    if (!todo.length || !picture.shown) picture.shown = picture.canvas;
  }
}

/** @type {(picture: Picture) => boolean} */
const isWhole = ({ todo }) => todo !== null && todo.length === 0;
