/** The width of a stroke of a hand whose pressure nobody tells: the faster it goes the thinner, and thin where a long stroke begins and ends. */
import { distance } from './inkcurves.js';

/** A point in units, when the hand was there, in milliseconds, and how it is pressed.
 * @typedef {import('./ink.js').Point & { time?: number }} Timed */

/** The pressure of a hand that rests, by how much less it is at full speed, and that speed in points of the screen a millisecond. */
const AT_REST = 0.62, LESS = 0.4, FAST = 2;

/** Milliseconds before and after a point in which its speed is measured. */
const WINDOW = 50;

/** Points of the screen from the end of a stroke in which it becomes as wide as it is, the part of its pressure at the end, and how long it is at least. */
const TAPER = { far: 16, least: 0.3, long: 48 };

/** A way with pressures: before it lies what is written of the stroke already.
 * @template {Timed} P
 * @param {P[]} way @param {Timed[]} before @param {number} point of the screen, in units @param {boolean} isDone whether it ends there @returns {P[]} */
export function bySpeed(way, before, point, isDone) {
  const whole = [...before, ...way], /** @type {number[]} */ far = [];
  whole.forEach((at, i) => far.push(i ? far[i - 1] + distance(whole[i - 1], at) / point : 0));
  const long = far[far.length - 1], time = (/** @type {number} */ i) => whole[i].time ?? 0;
  const ends = (/** @type {number} */ left, /** @type {boolean} */ is) => (is && long > TAPER.long ? Math.min(1, TAPER.least + ((1 - TAPER.least) * left) / TAPER.far) : 1);
  return way.map((at, n) => {
    const i = n + before.length;
    let [from, to] = [i, i];
    while (from > 0 && time(i) - time(from - 1) < WINDOW) from -= 1;
    while (to < whole.length - 1 && time(to + 1) - time(i) < WINDOW) to += 1;
    const speed = (far[to] - far[from]) / Math.max(1, time(to) - time(from));
    return { ...at, pressure: (AT_REST - LESS * Math.min(1, speed / FAST)) * Math.min(ends(far[i], before.length === 0), ends(long - far[i], isDone)) };
  });
}
