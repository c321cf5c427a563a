/** Which items are where: those that can leave a mark in a box, and that are under a hand. */
import { off } from './inkcurves.js';
import { KINDS, broadOf, fillOf, isLetters, isLine, isStroke } from './inkkinds.js';
import { boxOf, overlap } from './inkpaint.js';
import { WIDTHS } from './inksigns.js';

/** @typedef {import('./ink.js').Point} Point */
/** @typedef {import('./inkitems.js').Item} Item */
/** @typedef {import('./inkpaint.js').Box} Box */

/** Within this many units of its border a frame leaves a mark, and of its line a line, with its head. */
const BORDER = 200, BESIDE = 400;

/** Whether an item can leave a mark in a box: what is only about it does not.
 * @type {(item: Item, box: Box) => boolean} */
export function meets(item, box) {
  const own = boxOf(item), { kind, points, flag } = item, { form, isNote } = KINDS[kind];
  if (!overlap(own, box)) return false;
  if (form === 'closed' && !isNote && isHollow(item) && KINDS[kind].deep === KINDS.frame.deep) return !(box.x0 > own.x0 + BORDER && box.x1 < own.x1 - BORDER && box.y0 > own.y0 + BORDER && box.y1 < own.y1 - BORDER);
  if (form === 'line' && points.length === 2 && !flag) {
    const middle = { x: (box.x0 + box.x1) / 2, y: (box.y0 + box.y1) / 2 };
    return off(middle, points[0], points[1]) < Math.hypot(box.x1 - box.x0, box.y1 - box.y0) / 2 + BESIDE;
  }
  return true;
}

/** The parts of an item that a point is near to, by the places of their first points: of a stroke from lift to lift, else the whole.
 * @type {(item: Item, at: Point, near: number) => number[]} */
export function partsAt(item, at, near) {
  const { form, isNote } = KINDS[item.kind], box = boxOf(item);
  if (at.x < box.x0 - near || at.x > box.x1 + near || at.y < box.y0 - near || at.y > box.y1 + near) return [];
  const by = near + WIDTHS[item.width] * broadOf(item) * 0.5;
  if (isLetters(item) || isNote) return [0];
  if (form === 'closed') return isInShape(item, at, by) ? [0] : [];
  return strokesAt(item, at, by);
}

/** Whether a closed item is only about what it is about.
 * @type {(item: Item) => boolean} */
const isHollow = (item) => !fillOf(item) && !item.letters;

/** Whether a point is near to the border of a shape, or in one that is not empty.
 * @type {(item: Item, at: Point, by: number) => boolean} */
function isInShape(item, at, by) {
  const { kind, points: [a, b] } = item, [wide, high] = [Math.abs(a.x - b.x) / 2 || 1, Math.abs(a.y - b.y) / 2 || 1], [dx, dy] = [Math.abs(at.x - (a.x + b.x) / 2), Math.abs(at.y - (a.y + b.y) / 2)];
  // how far the point is inside the border, about
  const inside = KINDS[kind].deep?.(dx, dy, wide, high) ?? 0;
  return inside > -by && (!isHollow(item) || inside < by);
}

/** @type {(item: Item, at: Point, by: number) => number[]} */
function strokesAt(item, at, by) {
  /** @type {Set<number>} */
  const found = new Set(), { kind, points } = item, isBent = isLine(item) && !KINDS[kind].isPlain && points.length === 3, way = isBent ? [points[0], points[2], points[1]] : points;
  let start = 0;
  way.forEach((point, i) => {
    if (point.up) start = i;
    const next = way[i + 1];
    if (off(at, point, next && !next.up ? next : point) < by) found.add(isStroke(kind) ? start : 0);
  });
  return [...found];
}

/** The item on top of a few at a point.
 * @type {(items: Item[], at: Point, near: number) => Item | undefined} */
export const itemAt = (items, at, near) => items.findLast((item) => partsAt(item, at, near).length > 0);
