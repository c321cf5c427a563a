/** What is selected is made larger or smaller by a corner of the box about it, as if that were drawn on a sheet of rubber: the opposite
 * corner stays where it is. */
import { SIDE, clamp } from './cells.js';
import { off } from './inkcurves.js';
import { KINDS, isClosed, isLetters, isLine, isStroke } from './inkkinds.js';
import { boxAboutAll, closeBoxOf } from './inkpaint.js';
import { CELL_HIGH, CELL_WIDE, SIZES } from './inksigns.js';
import { isJoined, placed, writeLink, writeShape, writeStroke, writeWords } from './inkwriting.js';

/** @typedef {import('./types.js').Shape} Shape */
/** @typedef {import('./ink.js').Point} Point */
/** @typedef {import('./inkitems.js').Item} Item */
/** A corner of the box, and the one opposite to it; or the grip that turns it, and the middle.
 * @typedef {{ at: Point, still: Point, isTurn?: boolean, end?: number }} Grip   end: of a line alone, which of its points it is: an end, or where it is bent */
/** Where each point of the page comes to lie, and how many times as large it all becomes.
 * @typedef {{ to: (point: Point) => Point, times: number, isTurn?: boolean }} Stretch */

/** Points of the screen within which a grip is taken, and from the box to the one that turns it. */
const REACH = 16, ABOVE = 30;

/** With Shift it is turned in steps of 15 degrees. */
const STEP = Math.PI / 12;

/** A line that is bent by less than this many units is straight. */
const STRAIGHT = 30;

/** Nothing becomes smaller than this part of what it was. */
const LEAST = 0.1;

/** The box about some items, as close as it is shown: null if there are none.
 * @type {(items: Item[]) => import('./inkpaint.js').Box | null} */
export const frameAbout = (items) => boxAboutAll(items, closeBoxOf);

/** The corners of the box about some items, and above it the grip that turns them about their middle: none if there are no items.
 * @type {(items: Item[], point: number) => Grip[]} */
export function gripsOf(items, point) {
  const box = frameAbout(items), [{ kind, points }] = items.length === 1 ? items : [{ kind: '', points: [] }];
  if (!box) return [];
  if (kind === 'l') {
    const [a, b, over = { x: (a.x + b.x) / 2, y: (a.y + b.y) / 2 }] = points;
    return [{ at: a, still: b, end: 0 }, { at: b, still: a, end: 1 }, { at: over, still: a, end: 2 }];
  }
  const { x0, y0, x1, y1 } = box, corners = [{ x: x0, y: y0 }, { x: x1, y: y0 }, { x: x1, y: y1 }, { x: x0, y: y1 }], middle = { x: (x0 + x1) / 2, y: (y0 + y1) / 2 };
  return [...corners.map((at, i) => ({ at, still: corners[(i + 2) % 4] })), { at: { x: middle.x, y: y0 - ABOVE * point }, still: middle, isTurn: true }];
}

/** The grip that is under a hand, by how large a point of the screen is. What is small can be taken between its corners still.
 * @type {(items: Item[], at: Point, point: number) => Grip | undefined} */
export function gripAt(items, { x, y }, point) {
  return gripsOf(items, point).find(({ at, still }) => {
    const side = Math.max(Math.abs(at.x - still.x), Math.abs(at.y - still.y));
    return Math.max(Math.abs(at.x - x), Math.abs(at.y - y)) < Math.min(REACH * point, side / 4);
  });
}

/** What becomes of the page if it is turned about a point: in steps of 15 degrees where that is asked for.
 * @type {(grip: Grip, by: Point, isEven: boolean) => Stretch} */
function turnOf({ at, still }, by, isEven) {
  const free = Math.atan2(at.y + by.y - still.y, at.x + by.x - still.x) - Math.atan2(at.y - still.y, at.x - still.x);
  const angle = isEven ? Math.round(free / STEP) * STEP : free, [cos, sin] = [Math.cos(angle), Math.sin(angle)];
  const to = (/** @type {Point} */ point) => ({ ...point, x: still.x + (point.x - still.x) * cos - (point.y - still.y) * sin, y: still.y + (point.x - still.x) * sin + (point.y - still.y) * cos });
  return { to, times: 1, isTurn: true };
}

/** What becomes of the page if a corner is drawn so far: alike across and down where that is asked for, and where letters are among the items.
 * @type {(grip: Grip, items: Item[], by: Point, isEven: boolean) => Stretch} */
export function stretchOf(grip, items, by, isEven) {
  const { at, still } = grip;
  if (grip.isTurn) return turnOf(grip, by, isEven);
  /** @type {(axis: 'x' | 'y') => number} */
  const timesOf = (axis) => {
    const was = at[axis] - still[axis];
    return Math.abs(was) < 1 ? 1 : Math.max(LEAST, (was + by[axis]) / was);
  };
  const [across, down] = [timesOf('x'), timesOf('y')], most = Math.max(across, down), [fx, fy] = isEven || items.some(isLetters) ? [most, most] : [across, down];
  return { to: (point) => ({ ...point, x: still.x + (point.x - still.x) * fx, y: still.y + (point.y - still.y) * fy }), times: Math.sqrt(fx * fy) };
}

/** The size of letters that is nearest to another one.
 * @type {(size: number) => number} */
const sizeNear = (size) => SIZES.reduce((best, each, i) => (Math.abs(each - size) < Math.abs(SIZES[best] - size) ? i : best), 0);

/** A line of which one point is moved: an end, or the one that it passes half way, unless that comes to lie between the ends.
 * @type {(item: Item, end: number, by: Point) => Shape[]} */
export function reshaped({ colour, width, flag, points: [a, b, over] }, end, by) {
  const points = [a, b, ...over || end === 2 ? [over ?? { x: (a.x + b.x) / 2, y: (a.y + b.y) / 2 }] : []].map((point, i) => (i === end ? { x: point.x + by.x, y: point.y + by.y } : point));
  const isStraight = points.length === 3 && off(points[2], points[0], points[1]) < STRAIGHT;
  return writeShape('l', { colour, width }, flag, isStraight ? points.slice(0, 2) : points).map((text) => placed(text, 0));
}

/** The points of an item whose middle comes to lie elsewhere.
 * @type {(item: Item, to: (point: Point) => Point) => Point[]} */
function about(item, to) {
  const { x0, y0, x1, y1 } = closeBoxOf(item), middle = { x: (x0 + x1) / 2, y: (y0 + y1) / 2 }, at = to(middle);
  return item.points.map((point) => ({ ...point, x: point.x + at.x - middle.x, y: point.y + at.y - middle.y }));
}

/** The texts of the same ink elsewhere, larger or smaller.
 * @type {(item: Item, stretch: Stretch) => string[]} */
function inkTexts(item, { to, times, isTurn }) {
  const { kind, colour, width, flag, points, letters } = item;
  const look = { colour, width }, upright = isClosed(kind) || isLetters({ kind });
  // shapes and letters stay upright: their middle is turned alone
  const moved = isTurn && upright ? about(item, to) : points.map(to);
  if (isStroke(kind)) return writeStroke({ ...look, kind, scale: flag }, moved).map(({ text }) => text);
  if (isLine(item) || isClosed(kind)) return writeShape(kind, look, flag, moved, letters);
  const sized = { colour, width: sizeNear(SIZES[width] * times) }, link = KINDS[kind].isLink ? writeLink(sized, moved[0], letters) : null;
  return link ? [link] : writeWords(sized, KINDS[kind].isLink ? 0 : flag, moved[0], letters);
}

/** A plain drawing by cells: its ends, or where its text begins.
 * @type {(shape: Shape, stretch: Stretch) => Shape} */
function plain(shape, { to }) {
  /** @type {(x: number, y: number) => Point} */
  const cellAt = (x, y) => {
    const { x: across, y: down } = to({ x: (x + 0.5) * CELL_WIDE, y: (y + 0.5) * CELL_HIGH });
    return { x: clamp(Math.floor(across / CELL_WIDE), 0, SIDE - 1), y: clamp(Math.floor(down / CELL_HIGH), 0, SIDE - 1) };
  };
  if (shape.op === 'text') {
    const { x, y } = cellAt(shape.x, shape.y);
    return { ...shape, x: Math.min(x, SIDE - shape.text.length), y };
  }
  const [from, end] = [cellAt(shape.x0, shape.y0), cellAt(shape.x1, shape.y1)];
  return { ...shape, x0: from.x, y0: from.y, x1: end.x, y1: end.y };
}

/** Items as they are drawn after a stretch.
 * @type {(items: Item[], stretch: Stretch) => Shape[]} */
export const stretched = (items, stretch) => items.flatMap((item) => (KINDS[item.kind].isPlain
  ? item.drawings.map((drawing) => plain(drawing, stretch)) : inkTexts(item, stretch).map((text, i) => placed(text, 0, false, !i && item.drawings.slice(0, 1).some(isJoined)))));
