/** Where items are: tiles of several sizes, so that few items are looked at. An item is in the smallest tiles that are as large as its box, four at
 * most. */
import { partsAt } from './inkfind.js';
import { byPainting } from './inkitems.js';
import { boxOf, overlap } from './inkpaint.js';

/** @typedef {import('./ink.js').Point} Point */
/** @typedef {import('./inkitems.js').Item} Item */
/** @typedef {import('./inkpaint.js').Box} Box */
/** The tiles of one size that have items, by their places.
 * @typedef {{ side: number, tiles: Map<number, Set<Item>> }} Level */

/** Units of a side of the smallest tiles; how many times as long that of the next ones is; and how many sizes there are. */
const LEAST = 1024, TIMES = 4, LEVELS = 6;

/** More than the tiles of a row, and those that lie beyond the page's edges. */
const ROW = 4096, BEYOND = 16;

/** If more than one of 16 items is found, they are taken from the list in its order, and not put into order. */
const MANY = 16;

/** The places of the tiles that a box meets.
 * @type {(box: Box, side: number) => Box} */
const placesOf = ({ x0, y0, x1, y1 }, side) => ({ x0: Math.floor(x0 / side), y0: Math.floor(y0 / side), x1: Math.floor(x1 / side), y1: Math.floor(y1 / side) });

/** @type {(x: number, y: number) => number} */
const keyOf = (x, y) => (y + BEYOND) * ROW + x + BEYOND;

export class Grid {
  constructor() {
    /** @type {Level[]} */
    this.levels = Array.from({ length: LEVELS }, (_, n) => ({ side: LEAST * TIMES ** n, tiles: new Map() }));
  }

  /** @param {Item[]} gone @param {Item[]} come */
  change(gone, come) {
    for (const item of gone) this.each(item, (tiles, key) => tiles.get(key)?.delete(item));
    for (const item of come) {
      this.each(item, (tiles, key) => {
        const tile = tiles.get(key);
        if (tile) tile.add(item);
        else tiles.set(key, new Set([item]));
      });
    }
  }

  /** The tiles of an item.
   * @param {Item} item @param {(tiles: Map<number, Set<Item>>, key: number) => void} act */
  each(item, act) {
    const box = boxOf(item), long = Math.max(box.x1 - box.x0, box.y1 - box.y0), { side, tiles } = this.levels.find((level) => level.side >= long) ?? this.levels[LEVELS - 1];
    const { x0, y0, x1, y1 } = placesOf(box, side);
    for (let y = y0; y <= y1; y += 1) for (let x = x0; x <= x1; x += 1) act(tiles, keyOf(x, y));
  }

  /** The tiles that a box meets.
   * @param {Box} box @returns {Iterable<Set<Item>>} */
  * tilesAt(box) {
    for (const { side, tiles } of this.levels) {
      const { x0, y0, x1, y1 } = placesOf(box, side);
      // of so large a box those are looked at that there are
      if ((x1 - x0 + 1) * (y1 - y0 + 1) > tiles.size) yield* tiles.values();
      else {
        for (let y = y0; y <= y1; y += 1) {
          for (let x = x0; x <= x1; x += 1) {
            const tile = tiles.get(keyOf(x, y));
            if (tile) yield tile;
          }
        }
      }
    }
  }

  /** Whether the box of an item overlaps another.
   * @param {Box} box */
  hasAny(box) {
    for (const tile of this.tilesAt(box)) for (const item of tile) if (overlap(boxOf(item), box)) return true;
    return false;
  }

  /** The items whose boxes overlap another, in the order of painting, as these are.
   * @param {Box} box @param {Item[]} items all there are @returns {Item[]} */
  within(box, items) {
    /** @type {Set<Item>} */
    const found = new Set();
    for (const tile of this.tilesAt(box)) for (const item of tile) if (overlap(boxOf(item), box)) found.add(item);
    return found.size * MANY > items.length ? items.filter((item) => found.has(item)) : [...found].sort(byPainting);
  }

  /** The item on top at a point.
   * @param {Point} at @param {number} near @returns {Item | undefined} */
  itemAt(at, near) {
    let top = /** @type {Item | undefined} */ (undefined);
    for (const tile of this.tilesAt({ x0: at.x - near, y0: at.y - near, x1: at.x + near, y1: at.y + near })) {
      for (const item of tile) if ((!top || byPainting(item, top) > 0) && partsAt(item, at, near).length) top = item;
    }
    return top;
  }
}
