/** Few points for the way of a hand, through which the curve of a stroke stays near to it (docs/INK.md, "Writing"). */
import { along, bend, cosine, distance, isCorner, off } from './inkcurves.js';
import { settled, within } from './inksigns.js';
import { smoothed, turnsOf } from './inksmoothing.js';

/** @typedef {import('./ink.js').Point} Point */

/** Rounds of adding points, and straight parts of a curve when it is compared with the way. */
const ROUNDS = 8, PARTS = 8;

/** How far a curve rises over its chord from one point to the next, in distances wanted, and how far it turns, in radians: about. */
const RISE = 2.6, TURN = 0.64;

/** A pressure, of 1, may be off by so much. */
const PRESSED = 0.14;

/** In distances wanted: how far to both sides of a point its turn is measured. */
const ARM = 5;

/** Of the points between two the one that is farthest from a line. Null if none is farther than `near`.
 * @type {(way: Point[], from: number, to: number, line: Point[], near: number) => number | null} */
function farthest(way, from, to, line, near) {
  let [worst, far] = [/** @type {number | null} */ (null), near];
  for (let i = from + 1; i < to; i += 1) {
    let least = Infinity;
    for (let k = 0; k + 1 < line.length && least > far; k += 1) least = Math.min(least, off(way[i], line[k], line[k + 1]));
    if (least > far) [worst, far] = [i, least];
  }
  return worst;
}

/** By how much a way turns at a point, in radians a unit.
 * @type {(way: Point[], i: number, from: number, to: number, near: number) => number} */
function bentAt(way, i, from, to, near) {
  let [a, b] = [i, i];
  while (a > from && distance(way[a], way[i]) < ARM * near) a -= 1;
  while (b < to && distance(way[b], way[i]) < ARM * near) b += 1;
  return (2 * Math.acos(Math.min(1, Math.max(-1, cosine(way[a], way[i], way[b]))))) / (distance(way[a], way[i]) + distance(way[b], way[i]) || 1);
}

/** Places between two of a way, so that the curve turns about as much from each to the next, and half as much at both ends.
 * @type {(way: Point[], from: number, to: number, near: number) => number[]} */
function spread(way, from, to, near) {
  if (farthest(way, from, to, [way[from], way[to]], near) === null) return [];
  const parts = [0], bent = (/** @type {number} */ i) => bentAt(way, i, from, to, near);
  for (let i = from + 1, before = bent(from); i <= to; i += 1) {
    const is = bent(i), mean = (before + is) / 2;
    parts.push(parts[i - from - 1] + Math.max(Math.sqrt(mean / (8 * RISE * near)), mean / TURN) * distance(way[i - 1], way[i]));
    before = is;
  }
  // at its ends a curve is straight, so the points there are nearer to one another
  const whole = parts[parts.length - 1], many = Math.ceil(whole - 0.35), /** @type {number[]} */ places = [];
  for (let n = 0, i = 1; n < many; n += 1) {
    const part = (whole * (n + 0.5)) / many;
    while (parts[i] < part) i += 1;
    places.push(from + (parts[i] - part < part - parts[i - 1] ? i : i - 1));
  }
  return places;
}

/** The places at which the curve through some points is farthest from a way, one between two points; and where it would have a corner that the hand
 * had not, those beside it.
 * @type {(way: Point[], places: number[], corners: Set<number>, near: number) => number[]} */
function missed(way, places, corners, near) {
  const points = places.map((i) => way[i]);
  return places.slice(1).flatMap((to, k) => {
    const [b, c] = bend(points, k), curve = Array.from({ length: PARTS + 1 }, (_, i) => along(points[k], b, c, points[k + 1], i / PARTS)), from = places[k];
    const isFalse = (/** @type {number} */ at) => points[at - 1] && points[at + 1] && !corners.has(places[at]) && isCorner(points[at - 1], points[at], points[at + 1]);
    if (to - from > 1 && (isFalse(k) || isFalse(k + 1))) return (from + to) >> 1;
    return farthest(way, from, to, curve, near) ?? pressedOtherwise(way, from, to) ?? [];
  });
}

/** The place between two at which a hand presses most unlike what lies between their pressures. Null if it does so nowhere.
 * @type {(way: Point[], from: number, to: number) => number | null} */
function pressedOtherwise(way, from, to) {
  const { pressure: first } = way[from], { pressure: last } = way[to], far = distance(way[from], way[to]);
  if (first === undefined || last === undefined) return null;
  let [worst, most] = [/** @type {number | null} */ (null), PRESSED];
  for (let i = from + 1; i < to; i += 1) {
    const off = Math.abs((way[i].pressure ?? first) - first - ((last - first) * Math.min(1, distance(way[from], way[i]) / far)));
    if (off > most) [worst, most] = [i, off];
  }
  return worst;
}

/** So few points of a hand's way that the curve through them stays this near to all.
 * @template {Point} P
 * @param {P[]} hand @param {number} near @param {Point[]} [before] what of the way is written already, up to the first point @returns {P[]} */
export function fitted(hand, near, before = []) {
  if (hand.length < 3) return hand.map((point) => settled(point));
  const whole = [...before, ...hand], turns = turnsOf(whole, near), way = /** @type {P[]} */ (smoothed(whole, near, turns, before.length ? [before.length] : []).slice(before.length));
  if (before.length) way[0] = hand[0];
  const corners = new Set([0, ...turns.map((i) => i - before.length).filter((i) => i > 0)]), ends = [...corners];
  const kept = new Set([...ends, ...ends.slice(1).flatMap((to, k) => spread(way, ends[k], to, near))]);
  const places = () => [...kept].sort((a, b) => a - b);
  for (let round = 0; round < ROUNDS; round += 1) {
    const added = missed(way, places(), corners, near);
    if (!added.length) break;
    added.forEach((place) => kept.add(place));
  }
  return places().map((i) => within(way[i]));
}
