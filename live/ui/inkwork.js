/** What items cost to paint, about. A canvas puts much of the work off until the frame ends, when no clock is looked at, so a frame counts before. */
import { KINDS, isClosed } from './inkkinds.js';
import { manyDashes } from './inkpaths.js';

/** @typedef {import('./inkitems.js').Item} Item */

/** What is painted in a frame at most, in points of a stroke. */
export const WORK = 3000;

/** How many letters count as a point, and dashes; how many points one with pressure does, and a closed shape: it may fill a picture. */
const LETTERS = 4, DASHES = 4, PRESSED = 3, CLOSED = 15;

/** What an item costs, in points.
 * @type {(item: Item) => number} */
export function workOf(item) {
  const { points, kind, letters } = item;
  return points.length * (KINDS[kind].isPressed ? PRESSED : 1) + letters.length / LETTERS + (isClosed(kind) ? CLOSED : 0) + manyDashes(item) / DASHES;
}

/** The first items of some, as many as may be painted for so much.
 * @type {(items: Item[], work: number) => Item[]} */
export function withinWork(items, work) {
  let left = work;
  const end = items.findIndex((item) => {
    const isOver = left <= 0;
    left -= workOf(item);
    return isOver;
  });
  return end < 0 ? items : items.slice(0, end);
}
