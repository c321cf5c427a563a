/** The eraser takes strokes from lift to lift. Of an item that keeps some, these are drawn anew, and then the item is deleted. */
import { DAY, NIGHT } from './colours.js';
import { along, bend, off } from './inkcurves.js';
import { partsAt } from './inkfind.js';
import { broadOf, isStroke } from './inkkinds.js';
import { boxAbout } from './inkpaint.js';
import { CELL_WIDE, OWN, WIDTHS } from './inksigns.js';
import { placed, writeStroke } from './inkwriting.js';

/** @typedef {import('./types.js').Shape} Shape */
/** @typedef {import('./hand.js').Hand} Hand */
/** @typedef {import('./hand.js').Gesture} Gesture */
/** @typedef {import('./ink.js').Point} Point */
/** @typedef {import('./inkitems.js').Item} Item */
/** The items that were touched, and which parts of each, by the places of their first points.
 * @typedef {Map<Item, Set<number>>} Touched */
/** A way of the eraser, and how far it reaches.
 * @typedef {{ from: Point, to: Point, near: number }} Rub */

/** A step of a stroke is looked at in this many places at most. */
const MOST_PLACES = 48;

/** How far the hand reaches, in units.
 * @type {(view: import('./view.js').View) => number} */
export const reachOf = (view) => view.reach * (CELL_WIDE / view.wide);

/** Takes note of what the eraser touches between two points.
 * @type {(gesture: Gesture, hand: Hand, from: Point, to: Point) => void} */
export function rub(gesture, hand, from, to) {
  const { ink, view } = hand.parts, near = reachOf(view), touched = (gesture.touched ??= new Map());
  const many = Math.max(1, Math.ceil(Math.hypot(from.x - to.x, from.y - to.y) / near));
  (gesture.rubbed ??= []).push({ from, to, near });
  for (const item of ink.itemsIn(boxAbout([from, to], near))) {
    for (let k = 0; k <= many; k += 1) {
      const parts = partsAt(item, { x: from.x + ((to.x - from.x) * k) / many, y: from.y + ((to.y - from.y) * k) / many }, near);
      if (!parts.length) continue;
      const found = touched.get(item) ?? new Set();
      parts.forEach((part) => found.add(part));
      touched.set(item, found);
    }
  }
}

/** The strokes of an item that were not touched, drawn anew as they are seen.
 * @type {(item: Item, parts: Set<number>, hand: Hand) => Shape[]} */
export function restOf(item, parts, hand) {
  if (!isStroke(item.kind)) return [];
  /** @type {Point[]} */
  const left = [];
  let isOut = false;
  item.points.forEach((point, i) => {
    const isFirst = i === 0 || point.up, { up, ...bare } = point;
    if (isFirst) isOut = parts.has(i);
    if (!isOut) left.push(isFirst && left.length ? { ...bare, up: true } : bare);
  });
  const look = { kind: item.kind, colour: colourFor(item, hand), width: item.width, scale: item.flag };
  return left.length ? writeStroke(look, left).map(({ text }) => placed(text, 0)) : [];
}

/** What is left of a stroke where the eraser did not go, drawn anew.
 * @type {(item: Item, rubbed: Rub[], hand: Hand) => Shape[]} */
export function cutOf(item, rubbed, hand) {
  if (!isStroke(item.kind)) return [];
  const wide = (WIDTHS[item.width] * broadOf(item)) / 2, isGone = (/** @type {Point} */ at) => rubbed.some(({ from, to, near }) => off(at, from, to) < near + wide);
  const left = runsOf(item.points, isGone).flatMap(([first, ...others], i) => [i ? { ...first, up: true } : first, ...others]);
  const look = { kind: item.kind, colour: colourFor(item, hand), width: item.width, scale: item.flag };
  return left.length ? writeStroke(look, left).map(({ text }) => placed(text, 0)) : [];
}

/** The parts of strokes between what is gone: their own points, and where a part begins and ends those on the curve there.
 * @type {(points: Point[], isGone: (at: Point) => boolean) => Point[][]} */
export function runsOf(points, isGone) {
  const /** @type {Point[][]} */ runs = [];
  let /** @type {Point[] | null} */ run = null, /** @type {Point | null} */ tail = null;
  const end = () => {
    if (run && tail) run.push(tail);
    [run, tail] = [null, null];
  };
  const add = (/** @type {Point} */ at, /** @type {boolean} */ isOwn) => {
    if (isGone(at)) end();
    else if (!run) runs.push(run = [at]);
    else if (isOwn) [tail] = [null, run.push(at)];
    else tail = at;
  };
  points.forEach(({ up, ...point }, i) => {
    const next = points[i + 1];
    if (up) end();
    add(point, true);
    if (!next || next.up) return;
    const [b, c] = bend(points, i), many = Math.min(MOST_PLACES, Math.ceil(Math.hypot(next.x - point.x, next.y - point.y) / CELL_WIDE) * 4), { pressure: from = 0.5 } = point, { pressure: to = 0.5 } = next;
    for (let k = 1; k < many; k += 1) add({ ...along(point, b, c, next, k / many), ...point.pressure === undefined ? {} : { pressure: from + ((to - from) * k) / many } }, false);
  });
  end();
  const isDot = (/** @type {number} */ i) => i === 0 || points[i].up;
  // of a stroke no lone points are left, but for those that were dots
  return runs.filter((each) => each.length > 1 || points.some(({ x, y }, i) => x === each[0].x && y === each[0].y && isDot(i) && (!points[i + 1] || points[i + 1].up)));
}

/** The colour of an item for another member to draw in: of another's own colour the one that is nearest to it.
 * @type {(item: Item, hand: Hand) => number} */
export function colourFor({ colour, source }, { parts: { painter, session, notes } }) {
  if (colour !== OWN || source === session.hello.me) return colour;
  const chosen = notes.told.colours.get(source), tint = painter.tintOf(source);
  const far = (/** @type {string} */ other) => [1, 3, 5].reduce((sum, at) => sum + (parseInt(tint.slice(at, at + 2), 16) - parseInt(other.slice(at, at + 2), 16)) ** 2, 0);
  return chosen ?? (painter.isNight() ? NIGHT : DAY).map(far).reduce((least, each, i, all) => (each < all[least] ? i : least), 0);
}
