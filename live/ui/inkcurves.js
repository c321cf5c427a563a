/** The curve of a stroke between its points: centripetal Catmull-Rom, as one cubic for each step (docs/INK.md, "Painting"). */

/** @typedef {import('./ink.js').Point} Point */

/** The cosine of the turn from which on a point is a corner: 75 degrees. */
const CORNER = 0.2588;

/** @type {(a: Point, b: Point) => number} */
export const distance = (a, b) => Math.hypot(b.x - a.x, b.y - a.y);

/** The cosine of the turn of a way at `b`: 1 if it goes straight on, or has no length.
 * @type {(a: Point, b: Point, c: Point) => number} */
export function cosine(a, b, c) {
  const size = distance(a, b) * distance(b, c);
  return size > 0 ? ((b.x - a.x) * (c.x - b.x) + (b.y - a.y) * (c.y - b.y)) / size : 1;
}

/** Whether a way turns sharply at `b`.
 * @type {(a: Point, b: Point, c: Point) => boolean} */
export const isCorner = (a, b, c) => cosine(a, b, c) < CORNER;

/** The middle point of a cubic that is near to `from`. `before` is the point of the stroke before it, as seen from `to`.
 * @type {(before: Point | null, from: Point, to: Point) => Point} */
function middle(before, from, to) {
  const d1 = before ? Math.sqrt(distance(before, from)) : 0, d2 = Math.sqrt(distance(from, to));
  if (!before || d1 === 0 || d2 === 0) return { x: from.x + (to.x - from.x) / 3, y: from.y + (to.y - from.y) / 3 };
  const [a, b, c, whole] = [d1 * d1, d2 * d2, 2 * d1 * d1 + 3 * d1 * d2 + d2 * d2, 3 * d1 * (d1 + d2)];
  return { x: (a * to.x - b * before.x + c * from.x) / whole, y: (a * to.y - b * before.y + c * from.y) / whole };
}

/** The two middle points of the cubic from the i-th point of a stroke to the next.
 * @type {(points: Point[], i: number) => [Point, Point]} */
export function bend(points, i) {
  const [before, from, to, after] = [points[i - 1], points[i], points[i + 1], points[i + 2]];
  const comes = before && !from.up && !isCorner(before, from, to), goes = after && !after.up && !isCorner(from, to, after);
  return [middle(comes ? before : null, from, to), middle(goes ? after : null, to, from)];
}

/** The point of a cubic at a part of it, from 0 to 1.
 * @type {(a: Point, b: Point, c: Point, d: Point, part: number) => Point} */
export function along(a, b, c, d, part) {
  const left = 1 - part, [i, j, k, l] = [left ** 3, 3 * left * left * part, 3 * left * part * part, part ** 3];
  return { x: i * a.x + j * b.x + k * c.x + l * d.x, y: i * a.y + j * b.y + k * c.y + l * d.y };
}

/** How far a point is from the straight way between two others.
 * @type {(point: Point, a: Point, b: Point) => number} */
export function off(point, a, b) {
  const [across, down] = [b.x - a.x, b.y - a.y], size = across * across + down * down || 1;
  const part = Math.min(1, Math.max(0, ((point.x - a.x) * across + (point.y - a.y) * down) / size));
  return Math.hypot(point.x - a.x - part * across, point.y - a.y - part * down);
}
