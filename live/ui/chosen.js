/** What of the ink is selected: whole items, and of written ones some strokes, from lift to lift. */
import { nameOf } from './cells.js';
import { colourFor, restOf } from './eraser.js';
import { isStroke } from './inkkinds.js';
import { boxAbout, boxOf } from './inkpaint.js';
import { isJoined, placed, writeStroke } from './inkwriting.js';

/** @typedef {import('./types.js').Shape} Shape */
/** @typedef {import('./types.js').Drawing} Drawing */
/** @typedef {import('./ink.js').Point} Point */
/** @typedef {import('./inkitems.js').Item} Item */
/** An item of which something is selected: which strokes, by the places of their first points, or null for all of it; and that as an item.
 * @typedef {{ item: Item, parts: Set<number> | null, shown: Item }} Piece */

/** Strokes that lie up to this many units beyond a rectangle are within it still. */
const BEYOND = 40;

/** The strokes of an item, by the places of their first points.
 * @type {(item: Item) => number[]} */
export const startsOf = ({ points }) => points.flatMap(({ up }, i) => (i === 0 || up ? [i] : []));

/** An item with some of its strokes alone.
 * @type {(item: Item, parts: Set<number>) => Item} */
function pieceOf(item, parts) {
  const /** @type {Point[]} */ points = [];
  let isIn = false;
  item.points.forEach((point, i) => {
    if (i === 0 || point.up) isIn = parts.has(i);
    const { up, ...bare } = point;
    if (isIn) points.push(up && points.length ? point : bare);
  });
  return { ...item, points };
}

/** The strokes of an item that lie in a rectangle as a whole; of what is no writing all or none.
 * @type {(item: Item, from: Point, to: Point) => Set<number>} */
export function partsInside(item, from, to) {
  const { x0, y0, x1, y1 } = boxAbout([from, to], BEYOND), isIn = (/** @type {Point} */ { x, y }) => x >= x0 && y >= y0 && x <= x1 && y <= y1;
  if (!isStroke(item.kind)) {
    const box = boxOf(item);
    return new Set(isIn({ x: box.x0, y: box.y0 }) && isIn({ x: box.x1, y: box.y1 }) ? [0] : []);
  }
  const starts = startsOf(item);
  return new Set(starts.filter((start, i) => item.points.slice(start, starts[i + 1]).every(isIn)));
}

export class Chosen {
  /** @param {import('./hand.js').Hand} hand */
  constructor(hand) {
    this.hand = hand;
    /** The selected strokes of items that are not selected as a whole, by the names of their first drawings; with the number of their points, since
     * places are others once an item is another.
     * @type {Map<string, { many: number, parts: Set<number>, shown: Item | null }>} */
    this.strokes = new Map();
  }

  /** What is selected, in the order of painting, but for groups: their items follow one another.
   * @returns {Piece[]} */
  pieces() {
    const { hand, strokes } = this, { kept } = hand.parts.ink, found = new Set(hand.selected().map(({ source, seq }) => kept.itemOf(source, seq)));
    return kept.inGroups([...found].flatMap((item) => item ?? [])).flatMap(({ item }) => {
      const part = strokes.get(nameOf(item.drawings[0]));
      if (part && part.many !== item.points.length) return [];
      if (part) part.shown ??= pieceOf(item, part.parts);
      return [{ item, parts: part?.parts ?? null, shown: part?.shown ?? item }];
    });
  }

  /** The pieces as items.
   * @returns {Item[]} */
  items() {
    return this.pieces().map(({ shown }) => shown);
  }

  /** The drawings that are selected, or have strokes that are.
   * @returns {Drawing[]} */
  drawings() {
    return this.pieces().flatMap(({ item }) => item.drawings);
  }

  /** What is selected as it would be drawn anew, where it stands.
   * @returns {Shape[]} */
  shapes() {
    return this.pieces().flatMap((piece) => this.shapesOf(piece));
  }

  /** @param {Piece} piece @returns {Shape[]} */
  shapesOf({ item, parts, shown }) {
    if (!parts) return item.drawings;
    const look = { kind: item.kind, colour: colourFor(item, this.hand), width: item.width, scale: item.flag };
    return writeStroke(look, shown.points).map(({ text }) => placed(text, 0));
  }

  /** What is left of items of which strokes are selected.
   * @param {Piece[]} [pieces] @returns {Shape[]} */
  rest(pieces = this.pieces()) {
    return pieces.flatMap(({ item, parts }) => (parts ? restOf(item, parts, this.hand) : []));
  }

  /** Whether strokes of an item are selected.
   * @param {Item} item @param {number[]} parts */
  has(item, parts) {
    const name = nameOf(item.drawings[0]), some = this.strokes.get(name);
    return this.hand.selection.has(name) && (!some || parts.some((part) => some.parts.has(part)));
  }

  /** Whether something that is selected is of a group, and whether all of it is one.
   * @returns {[boolean, boolean]} */
  grouped() {
    const [first, ...others] = this.pieces(), areJoined = others.map(({ item }) => isJoined(item.drawings[0]));
    return [areJoined.some(Boolean), first !== undefined && areJoined.every(Boolean)];
  }

  /** Selects an item, or some strokes of it, with those that were; of a group all.
   * @param {Item} item @param {Set<number> | null} [parts] */
  add(item, parts = null) {
    const group = this.hand.parts.ink.kept.groupOf(item);
    if (group.length > 1) group.forEach((each) => this.addOne(each));
    else this.addOne(item, parts);
  }

  /** @param {Item} item @param {Set<number> | null} [parts] */
  addOne(item, parts = null) {
    const name = nameOf(item.drawings[0]), before = this.hand.selection.has(name) ? this.strokes.get(name)?.parts ?? null : new Set(/** @type {number[]} */ ([]));
    const all = parts && before && new Set([...before, ...parts]);
    item.drawings.forEach((drawing) => this.hand.selection.add(nameOf(drawing)));
    if (!all || all.size >= startsOf(item).length) this.strokes.delete(name);
    else this.strokes.set(name, { many: item.points.length, parts: all, shown: null });
  }

  /** @param {Item} item */
  remove(item) {
    for (const { drawings } of this.hand.parts.ink.kept.groupOf(item)) drawings.forEach((drawing) => this.hand.selection.delete(nameOf(drawing)));
  }
}
