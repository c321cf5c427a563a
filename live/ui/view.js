/** The part of the page that is in view, and where each of its cells and points is on the sheet. */
import { SIDE, clamp } from './cells.js';
import { CELL_HIGH, CELL_WIDE, PAGE_HIGH, PAGE_WIDE } from './inksigns.js';

/** @typedef {import('./cells.js').Cell} Cell */
/** @typedef {import('./ink.js').Point} Point */
/** Points of the sheet at its edges that something covers.
 * @typedef {{ top: number, right: number, bottom: number, left: number }} Edge */

/** The least and the greatest width of a cell, in points: as ink, and by characters, whose cells are whole points. */
const INK = { least: 0.25, most: 96 }, CELLS = { least: 4, most: 28 };

/** How many times as high as wide a cell is: so units are square. */
const TALL = CELL_HIGH / CELL_WIDE;

/** The width of a cell at 100 per cent. */
export const USUAL = 10;

/** Points beyond the page's edges that may be seen, so that nothing stands under what floats over the sheet; and those beside the page's
 * corner where that is shown. */
const MARGIN = { across: 120, down: 140 }, CORNER = { across: 20, down: 133 };

/** A number within its bounds, or between them where there is no room.
 * @type {(n: number, low: number, high: number) => number} */
const held = (n, low, high) => (low > high ? (low + high) / 2 : clamp(n, low, high));

export class View {
  /** @param {HTMLElement} sheet @param {(size: string) => number} measure the width of an M in a font of this size */
  constructor(sheet, measure) {
    this.sheet = sheet;
    this.measure = measure;
    this.isInk = true;
    this.left = 0;
    this.top = 0;
    this.wide = USUAL;
    this.high = USUAL * TALL;
    this.size = 14;
    this.columns = 1;
    this.rows = 1;
    this.width = sheet.clientWidth;
    this.height = sheet.clientHeight;
    /** Points of the screen within which the hand takes what is drawn. */
    this.reach = 7;
    /** When the cells last became larger or smaller. */
    this.sizedAt = -Infinity;
    /** @type {(() => void)[]} */
    this.listeners = [];
  }

  /** @param {() => void} hear called after each move or change of size */
  onMove(hear) {
    this.listeners.push(hear);
  }

  /** The point of the page at the sheet's corner, in whole points of the screen from the page's corner.
   * @returns {[number, number]} */
  corner() {
    return [Math.round(this.left * this.wide), Math.round(this.top * this.high)];
  }

  /** @param {number} x */
  pixelX(x) {
    return x * this.wide - Math.round(this.left * this.wide);
  }

  /** @param {number} y */
  pixelY(y) {
    return y * this.high - Math.round(this.top * this.high);
  }

  /** The cells that are in view, also those in part.
   * @returns {import('./cells.js').Box} */
  box() {
    return { x0: Math.floor(this.left), y0: Math.floor(this.top), x1: Math.floor(this.left + this.columns), y1: Math.floor(this.top + this.rows) };
  }

  /** @param {number} x @param {number} y */
  has(x, y) {
    const { x0, y0, x1, y1 } = this.box();
    return x >= x0 && y >= y0 && x <= x1 && y <= y1;
  }

  /** The cell under a point of the window.
   * @param {{ clientX: number, clientY: number }} point @returns {Cell} */
  cellAt({ clientX, clientY }) {
    const box = this.sheet.getBoundingClientRect();
    return { x: clamp(Math.floor((clientX - box.left) / this.wide + this.left), 0, SIDE - 1),
      y: clamp(Math.floor((clientY - box.top) / this.high + this.top), 0, SIDE - 1) };
  }

  /** The point of the page under a point of the window, in units.
   * @param {{ clientX: number, clientY: number }} point @returns {Point} */
  pointAt({ clientX, clientY }) {
    const box = this.sheet.getBoundingClientRect(), [left, top] = this.corner();
    return { x: clamp(((clientX - box.left + left) / this.wide) * CELL_WIDE, 0, PAGE_WIDE - 1), y: clamp(((clientY - box.top + top) / this.high) * CELL_HIGH, 0, PAGE_HIGH - 1) };
  }

  /** The sheet has another size. */
  resize() {
    this.width = this.sheet.clientWidth;
    this.height = this.sheet.clientHeight;
    this.goTo(this.left, this.top);
  }

  /** As ink, or by characters, in about the size as before.
   * @param {boolean} isInk */
  setLook(isInk) {
    this.isInk = isInk;
    this.setSize(isInk ? this.wide : Math.max(8, this.wide));
  }

  /** Makes a cell a number of points wide. The point of the sheet that is given, else its corner, stays over the same cell.
   * @param {number} wide @param {{ x: number, y: number }} point */
  setSize(wide, { x, y } = { x: 0, y: 0 }) {
    const over = { x: this.left + x / this.wide, y: this.top + y / this.high };
    this.wide = this.isInk ? clamp(wide, INK.least, INK.most) : clamp(Math.round(wide), CELLS.least, CELLS.most);
    this.high = this.isInk ? this.wide * TALL : Math.round(this.wide * TALL);
    this.sizedAt = performance.now();
    this.size = (this.wide * 100) / this.measure('100px');
    this.goTo(over.x - x / this.wide, over.y - y / this.high);
  }

  /** Larger by one step, or smaller by as many.
   * @param {number} steps @param {{ x: number, y: number }} [point] that stays where it is */
  zoom(steps, point) {
    this.setSize(this.isInk ? this.wide * 1.25 ** steps : this.wide + Math.sign(steps), point);
  }

  /** 100 per cent, about the middle. */
  fit() {
    this.setSize(USUAL, { x: this.width / 2, y: this.height / 2 });
  }

  /** Shows all of a box in units, no larger than 100 per cent; where there is none, the page's corner.
   * @param {import('./inkpaint.js').Box | null} box @param {Edge} edge that is covered */
  fitTo(box, edge) {
    const [across, down] = [this.width - edge.left - edge.right, this.height - edge.top - edge.bottom];
    if (!box) {
      this.setSize(USUAL);
      this.home();
      return;
    }
    this.setSize(Math.min(USUAL, (across * CELL_WIDE) / Math.max(1, box.x1 - box.x0), (down * CELL_HIGH) / Math.max(1, box.y1 - box.y0) / TALL));
    this.goTo((box.x0 + box.x1) / 2 / CELL_WIDE - (edge.left + across / 2) / this.wide, (box.y0 + box.y1) / 2 / CELL_HIGH - (edge.top + down / 2) / this.high);
  }

  /** What is in view, in units.
   * @returns {import('./inkpaint.js').Box} */
  boxInUnits() {
    const [x0, y0] = [this.left * CELL_WIDE, this.top * CELL_HIGH];
    return { x0, y0, x1: x0 + this.columns * CELL_WIDE, y1: y0 + this.rows * CELL_HIGH };
  }

  /** Shows all of a box in units in the middle, as large as there is room.
   * @param {import('./inkpaint.js').Box} box */
  showBox({ x0, y0, x1, y1 }) {
    const wide = Math.min((this.width * CELL_WIDE) / (x1 - x0), (this.height * CELL_HIGH) / (y1 - y0) / TALL);
    if (Math.abs(wide - this.wide) > this.wide / 1000) this.setSize(wide);
    this.goTo((x0 + x1) / 2 / CELL_WIDE - this.columns / 2, (y0 + y1) / 2 / CELL_HIGH - this.rows / 2);
  }

  /** Shows the page's corner. */
  home() {
    this.goTo(-CORNER.across / this.wide, -CORNER.down / this.high);
  }

  /** Puts a cell at the upper left, as far as the page goes.
   * @param {number} left @param {number} top */
  goTo(left, top) {
    this.columns = this.width / this.wide;
    this.rows = this.height / this.high;
    const [across, down] = [MARGIN.across / this.wide, MARGIN.down / this.high];
    this.left = held(left, -across, SIDE - this.columns + across);
    this.top = held(top, -down, SIDE - this.rows + down);
    this.listeners.forEach((hear) => hear());
  }

  /** Brings a cell into view, at least some cells from the edges; whether the view had to move.
   * @param {Cell} cell @param {number} [by] */
  reveal({ x, y }, by = 1) {
    const left = clamp(this.left, x - Math.floor(this.columns) + 1 + by, x - by);
    const top = clamp(this.top, y - Math.floor(this.rows) + 1 + by, y - by);
    const isElsewhere = left !== this.left || top !== this.top;
    if (isElsewhere) this.goTo(left, top);
    return isElsewhere;
  }
}
