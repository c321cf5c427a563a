/** The outline of a stroke whose width changes, as a path that is filled: a ribbon about the curve, with round ends and corners. */
import { along, bend, distance, isCorner } from './inkcurves.js';
import { PRESSED } from './inkmeasures.js';
import { tenth } from './inkpaths.js';
import { WIDTHS } from './inksigns.js';

/** @typedef {import('./ink.js').Point} Point */
/** @typedef {import('./inkitems.js').Item} Item */
/** A place on a curve: where it is, which way the curve goes, and half the width there.
 * @typedef {{ x: number, y: number, across: number, down: number, wide: number }} Place */

/** How far a curve turns from one place to the next at most, in radians, about, and how far it goes, in units. */
const TURN = 0.07, FAR = 160;

/** Places of one step at most. */
const MOST = 40;

/** @type {(a: Point, b: Point, c: Point, d: Point) => number} */
function turned(a, b, c, d) {
  const angle = (/** @type {Point} */ p, /** @type {Point} */ q) => Math.atan2(q.y - p.y, q.x - p.x), [first, middle, last] = [angle(a, b), angle(b, c), angle(c, d)];
  const between = (/** @type {number} */ from, /** @type {number} */ to) => Math.abs(Math.atan2(Math.sin(to - from), Math.cos(to - from)));
  return between(first, middle) + between(middle, last);
}

/** A place of a cubic at a part of it, from 0 to 1.
 * @type {(a: Point, b: Point, c: Point, d: Point, part: number, wide: number) => Place} */
function placeAt(a, b, c, d, part, wide) {
  const at = along(a, b, c, d, part), left = 1 - part, slope = (/** @type {'x' | 'y'} */ axis) => left * left * (b[axis] - a[axis]) + 2 * left * part * (c[axis] - b[axis]) + part * part * (d[axis] - c[axis]);
  const [dx, dy] = [slope('x'), slope('y')], size = Math.hypot(dx, dy), chord = distance(a, d) || 1;
  const [across, down] = size > 1e-6 ? [dx / size, dy / size] : [(d.x - a.x) / chord, (d.y - a.y) / chord];
  return { ...at, across, down, wide };
}

/** The places of a stroke without lifts, one list for each part between two corners.
 * @type {(points: Point[], halfAt: (point: Point) => number) => Place[][]} */
function placesOf(points, halfAt) {
  const /** @type {Place[][]} */ parts = [[]];
  for (let i = 0; i + 1 < points.length; i += 1) {
    const [a, d] = [points[i], points[i + 1]], [b, c] = bend(points, i), [from, to] = [halfAt(a), halfAt(d)];
    const many = Math.min(MOST, Math.max(1, Math.ceil(turned(a, b, c, d) / TURN), Math.ceil(distance(a, d) / FAR)));
    if (i && isCorner(points[i - 1], a, d)) parts.push([]);
    const part = parts[parts.length - 1];
    for (let k = part.length ? 1 : 0; k <= many; k += 1) part.push(placeAt(a, b, c, d, k / many, from + ((to - from) * k) / many));
  }
  return parts.filter((part) => part.length);
}

/** @type {(place: Place, side: number) => Point} */
const beside = ({ x, y, across, down, wide }, side) => ({ x: x - down * wide * side, y: y + across * wide * side });

/** @type {(points: Point[]) => string} */
const polygon = (points) => `M${points.map(({ x, y }) => `${tenth(x)} ${tenth(y)}`).join('L')}Z`;

/** Twice the area of a triangle, below 0 if it goes round the other way.
 * @type {(a: Point, b: Point, c: Point) => number} */
const area = (a, b, c) => (b.x - a.x) * (c.y - a.y) - (c.x - a.x) * (b.y - a.y);

/** @type {(a: Point, b: Point, c: Point) => string} */
const triangle = (a, b, c) => polygon(area(a, b, c) < 0 ? [a, c, b] : [a, b, c]);

/** A part of a stroke. If it is bent more closely than it is wide, it is of pieces that all go round one way: so what lies twice stays filled.
 * @type {(places: Place[]) => string} */
function ribbon(places) {
  const left = places.map((place) => beside(place, -1)), right = places.map((place) => beside(place, 1));
  const isPlain = places.every((_, i) => i === 0 || (area(left[i - 1], left[i], right[i]) >= 0 && area(left[i - 1], right[i], right[i - 1]) >= 0));
  if (isPlain) return polygon([...left, ...right.reverse()]);
  return places.slice(1).map((_, i) => triangle(left[i], left[i + 1], right[i + 1]) + triangle(left[i], right[i + 1], right[i])).join('');
}

/** @type {(point: Point, half: number) => string} */
function round({ x, y }, half) {
  const r = tenth(half);
  return `M${tenth(x - r)} ${tenth(y)}a${r} ${r} 0 1 1 ${2 * r} 0a${r} ${r} 0 1 1 ${-2 * r} 0Z`;
}

/** The outline of a stroke with pressure.
 * @type {(item: Item) => string} */
export function outlineOf({ points, width }) {
  const halfAt = (/** @type {Point} */ { pressure = 0.5 }) => (WIDTHS[width] * (PRESSED.least + PRESSED.more * pressure)) / 2, starts = points.flatMap(({ up }, i) => (i === 0 || up ? [i] : []));
  return starts.map((start, n) => {
    const run = points.slice(start, starts[n + 1]), parts = placesOf(run, halfAt), joints = [run[0], ...parts.map((part) => part[part.length - 1])];
    return parts.map(ribbon).join('') + joints.map((at) => round(at, 'wide' in at ? at.wide : halfAt(at))).join('');
  }).join('');
}
