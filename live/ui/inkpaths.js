/** The paths of items, in units, as SVG writes them: a canvas makes a path of its own of each. */
import { bend, distance } from './inkcurves.js';
import { KINDS, isClosed, isLine, isStroke } from './inkkinds.js';
import { DASHES, HEAD } from './inkmeasures.js';
import { WIDTHS } from './inksigns.js';

/** @typedef {import('./ink.js').Point} Point */
/** @typedef {import('./inkitems.js').Item} Item */

/** The corners of a stroke of cells are cut by this many units at most. */
const CUT = 200;

/** A number of a path, to a tenth of a unit.
 * @type {(n: number) => number} */
export const tenth = (n) => Math.round(n * 10) / 10;

/** @type {(word: string, ...points: Point[]) => string} */
const part = (word, ...points) => word + points.map(({ x, y }) => `${tenth(x)} ${tenth(y)}`).join(' ');

/** The path of an item. Each stroke of it begins with an M.
 * @type {(item: Item) => string} */
export function wayOf(item) {
  const { kind, points } = item;
  if (isStroke(kind)) return strokes(points);
  if (!isLine(item)) return closed(item);
  return KINDS[kind].isPlain && points.length > 2 ? cut(points) : lined(item);
}

/** @type {(points: Point[]) => string} */
function strokes(points) {
  return points.map((point, i) => {
    const next = points[i + 1], isFirst = i === 0 || point.up, isLast = !next || next.up;
    // a point alone is a dot
    const start = isFirst ? part('M', point) + (isLast ? part('L', { x: point.x + 0.5, y: point.y }) : '') : '';
    return isLast ? start : start + part('C', ...bend(points, i), next);
  }).join('');
}

/** A stroke of cells, its corners cut: they are those of cells, and not of the hand.
 * @type {(points: Point[]) => string} */
function cut(points) {
  const last = points.length - 1;
  /** @type {(at: Point, to: Point) => Point} */
  const towards = (at, to) => {
    const share = Math.min(0.5, CUT / (Math.hypot(to.x - at.x, to.y - at.y) || 1));
    return { x: at.x + (to.x - at.x) * share, y: at.y + (to.y - at.y) * share };
  };
  const bends = points.slice(1, last).map((at, i) => part('L', towards(at, points[i])) + part('Q', at, towards(at, points[i + 2])));
  return part('M', points[0]) + bends.join('') + part('L', points[last]);
}

/** A line or an arrow; of three points the last is passed on the way.
 * @type {(item: Item) => string} */
function lined({ kind, points: [a, b, over], width, flag }) {
  const way = over && { x: 2 * over.x - (a.x + b.x) / 2, y: 2 * over.y - (a.y + b.y) / 2 }, isDot = a.x === b.x && a.y === b.y;
  const line = part('M', a) + (way ? part('Q', way, b) : part('L', isDot ? { x: b.x + 0.5, y: b.y } : b));
  const atEnd = flag & 1 ? head(b, way ?? a, width) : '', atStart = !KINDS[kind].isPlain && flag & 2 ? head(a, way ?? b, width) : '';
  return line + atEnd + atStart;
}

/** @type {(tip: Point, from: Point, width: number) => string} */
function head(tip, from, width) {
  const angle = Math.atan2(tip.y - from.y, tip.x - from.x), size = Math.max(HEAD.least, WIDTHS[width] * HEAD.widths);
  return [-HEAD.side, HEAD.side].map((side) => part('M', tip)
    + part('L', { x: tip.x - size * Math.cos(angle + side), y: tip.y - size * Math.sin(angle + side) })).join('');
}

/** A frame, an ellipse, a diamond or a note.
 * @type {(item: Item) => string} */
const closed = ({ kind, points: [a, b] }) => KINDS[kind].way?.(Math.min(a.x, b.x), Math.min(a.y, b.y), Math.abs(a.x - b.x), Math.abs(a.y - b.y)) ?? '';

/** Of how many units the dashes and the gaps of a line or a shape are, or none.
 * @type {(item: Item) => number[]} */
export function dashesOf({ kind, flag, width, points: [a, b], drawings: [drawing] }) {
  if (KINDS[kind].isPlain) return drawing.op === 'line' && drawing.glyph === '.' ? [1, 40] : [];
  const isDashed = Boolean(flag & 4) && KINDS[kind].looks?.includes('dashed') && Math.hypot(a.x - b.x, a.y - b.y) < DASHES.most[isClosed(kind) ? 'shape' : 'line'];
  return isDashed ? [WIDTHS[width] * DASHES.long, WIDTHS[width] * DASHES.gap] : [];
}

/** How many dashes an item has, about.
 * @type {(item: Item) => number} */
export function manyDashes(item) {
  const { points, kind } = item, each = dashesOf(item).reduce((sum, part) => sum + part, 0), [a, b] = points;
  if (!each) return 0;
  const far = isClosed(kind) ? 2 * (Math.abs(a.x - b.x) + Math.abs(a.y - b.y)) : points.reduce((sum, point, i) => sum + (i ? distance(points[i - 1], point) : 0), 0);
  return far / each;
}
