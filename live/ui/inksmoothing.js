/** A hand's way without its trembling: a screen tells each point to a point of it, and a hand is no steadier. */
import { cosine, distance } from './inkcurves.js';

/** @typedef {import('./ink.js').Point} Point */

/** In distances that a way may be off: how far to both sides of a point its turn is measured. */
const ARM = 14;

/** In the same: how far a way may be off the points that a screen tells, in the mean of those about one; of points that tremble; and at one of them. */
const OFF = { told: 0.8, trembling: 1.4, one: 3 };

/** The points on each side of one that are about it. */
const BESIDE = 8;

/** What points that tremble are off changes from each to the next; where more than this part of it stays, the hand went another way. */
const ALIKE = 0.3;

/** The powers of ten of what a change of bend may cost: the least, how much more, and how often the half of that is tried. */
const LEAST = -3, MORE = 12, HALVES = 7;

/** How much a point weighs through which the way goes whatever that costs. */
const HELD = 1e4;

/** The cosines of the turn of a corner, from arm to arm and from the halves of them: a curve turns by less near to its middle. */
const CORNER = 0.2588, HALF = 0.5;

/** A way that goes round a bow lies so far outside of straight arms, in distances that it may be off. */
const BOW = 1.5;

/** How far a point lies to one side of a line, below 0 on the other.
 * @type {(point: Point, a: Point, b: Point) => number} */
const aside = (point, a, b) => ((b.x - a.x) * (point.y - a.y) - (b.y - a.y) * (point.x - a.x)) / (distance(a, b) || 1);

/** The turn at a point of a way, from the middle of the points before it to the middle of those after it: its cosine, and how far both lie outside of straight ways from
 * the point to the last of them, as those of a bow do. Null so near to an end of the way that nobody can tell.
 * @type {(way: Point[], i: number, arm: number) => { turn: number, bow: number } | null} */
function turnAt(way, i, arm) {
  const [from, to] = [-1, 1].map((by) => {
    const sum = { x: 0, y: 0 };
    let [many, far, k] = [0, 0, i + by];
    for (; way[k] && (!many || distance(way[k], way[i]) < arm); k += by) {
      [sum.x, sum.y, many, far] = [sum.x + way[k].x, sum.y + way[k].y, many + 1, Math.max(far, distance(way[k], way[i]))];
    }
    return far > arm / 2 ? { middle: { x: sum.x / many, y: sum.y / many }, end: way[k - by] } : null;
  });
  if (!from || !to) return null;
  const side = Math.sign(aside(to.middle, way[i], from.middle));
  return { turn: cosine(from.middle, way[i], to.middle), bow: side * (aside(from.middle, from.end, way[i]) + aside(to.middle, way[i], to.end)) };
}

/** The places at which a hand turned sharply, and the ends of its way.
 * @type {(way: Point[], near: number) => number[]} */
export function turnsOf(way, near) {
  const arm = ARM * near, sharp = way.map((_, i) => {
    const { turn, bow } = turnAt(way, i, arm) ?? { turn: 1, bow: 0 };
    return turn < CORNER && bow < BOW * near && (turnAt(way, i, arm / 2)?.turn ?? 1) < HALF ? turn : 1;
  });
  /** Of the points about a corner the sharpest one is it.
   * @type {(i: number) => boolean} */
  const isSharpest = (i) => {
    for (let k = i - 1; k >= 0 && distance(way[k], way[i]) < arm; k -= 1) if (sharp[k] <= sharp[i]) return false;
    for (let k = i + 1; k < way.length && distance(way[k], way[i]) < arm; k += 1) if (sharp[k] < sharp[i]) return false;
    return true;
  };
  return [...way.keys()].filter((i) => i === 0 || i === way.length - 1 || (sharp[i] < 1 && isSharpest(i)));
}

/** How far along the points of a way are: by the roots of the distances, which tremble less than these; in the mean 1 each.
 * @type {(way: Point[], near: number) => number[]} */
function placesOf(way, near) {
  let far = 0;
  const at = way.map((point, i) => (far += i ? Math.sqrt(Math.max(near / 10, distance(way[i - 1], point))) : 0));
  return at.map((each) => (each * (way.length - 1)) / far);
}

/** How much the bend of a way changes, as parts of four places that follow one another: at all but the last three.
 * @type {(at: number[]) => number[][]} */
const bendsOf = (at) => at.slice(3).map((_, i) => {
  const four = at.slice(i, i + 4), share = 6 * Math.sqrt((four[3] - four[0]) / 3);
  return four.map((own, k) => four.reduce((part, other, n) => (n === k ? part : part / (own - other)), share));
});

/** The matrix of a way that stays near to points as far as each weighs, and whose bend costs so much where it changes, in the parts of Cholesky without roots: of each row the
 * diagonal and what stands right of it.
 * @type {(weights: number[], bends: number[][], cost: number) => number[][]} */
function parted(weights, bends, cost) {
  const rows = weights.map((weight) => [weight, 0, 0, 0]);
  bends.forEach((bend, i) => bend.forEach((part, k) => bend.slice(k).forEach((other, n) => { rows[i + k][n] += cost * part * other; })));
  rows.forEach((row, i) => rows.slice(i + 1, i + 4).forEach((below, k) => row.slice(k + 1).forEach((part, n) => { below[n] -= (row[k + 1] / row[0]) * part; })));
  return rows;
}

/** Where the points lie by one axis.
 * @type {(rows: number[][], sides: number[]) => number[]} */
function solved(rows, sides) {
  const found = [...sides];
  rows.forEach((row, i) => { for (let k = 1; k < 4 && i + k < found.length; k += 1) found[i + k] -= (row[k] / row[0]) * found[i]; });
  for (let i = found.length - 1; i >= 0; i -= 1) {
    found[i] /= rows[i][0];
    for (let k = 1; k < 4 && i + k < found.length; k += 1) found[i] -= (rows[i][k] / rows[i][0]) * found[i + k];
  }
  return found;
}

/** Whether a way is nowhere farther from what a screen tells than that trembles: by how far off it is at each point.
 * @type {(off: Point[], near: number) => boolean} */
function isNear(off, near) {
  const squares = [0], alike = [0];
  off.forEach(({ x, y }, i) => {
    squares.push(squares[i] + x * x + y * y);
    alike.push(alike[i] + (i ? x * off[i - 1].x + y * off[i - 1].y : 0));
  });
  return off.every((_, i) => {
    const from = Math.max(0, i - BESIDE), to = Math.min(off.length, i + BESIDE + 1), all = squares[to] - squares[from], most = (to - from) * near ** 2;
    const isTold = all <= most * OFF.told ** 2, isTrembling = all <= most * OFF.trembling ** 2 && alike[to] - alike[from + 1] <= ALIKE * all;
    return squares[i + 1] - squares[i] <= (OFF.one * near) ** 2 && (isTold || isTrembling);
  });
}

/** A way between two corners whose bend changes as little as it may.
 * @template {Point} P @param {P[]} way @param {number[]} weights how much each point weighs @param {number} near @returns {P[]} */
function levelled(way, weights, near) {
  if (way.length < 5) return way;
  const bends = bendsOf(placesOf(way, near)), [{ x: x0, y: y0 }] = way, sides = [way.map(({ x }, i) => weights[i] * (x - x0)), way.map(({ y }, i) => weights[i] * (y - y0))];
  let [found, cost] = [way, LEAST];
  for (let more = MORE / 2, n = 0; n < HALVES; n += 1, more /= 2) {
    const rows = parted(weights, bends, 10 ** (cost + more)), [x, y] = sides.map((side) => solved(rows, side)), next = way.map((point, i) => ({ ...point, x: x0 + x[i], y: y0 + y[i] }));
    if (isNear(next.map((point, i) => ({ x: point.x - way[i].x, y: point.y - way[i].y })), near)) [found, cost] = [next, cost + more];
  }
  return found;
}

/** A way without its trembling: its corners, and points that are held, stay where they are.
 * @template {Point} P @param {P[]} way @param {number} near @param {number[]} corners @param {number[]} [held] @returns {P[]} */
export function smoothed(way, near, corners, held = []) {
  const weights = way.map((_, i) => (held.includes(i) || (i > 0 && i < way.length - 1 && corners.includes(i)) ? HELD : 1));
  return corners.slice(1).flatMap((to, n) => levelled(way.slice(corners[n], to + 1), weights.slice(corners[n], to + 1), near).slice(n ? 1 : 0));
}
