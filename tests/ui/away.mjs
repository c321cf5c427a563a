// How far a hand's way lies from its ink.
import { along, bend, off } from '../../live/ui/inkcurves.js';

/** How far points are from the curve of a stroke, in units. */
export function awayFrom(points, stroke) {
  const parts = stroke.slice(1).flatMap((to, i) => {
    const [b, c] = bend(stroke, i), at = Array.from({ length: 17 }, (_, k) => along(stroke[i], b, c, to, k / 16));
    return to.up ? [] : at.slice(1).map((end, k) => [at[k], end]);
  });
  return Math.max(...points.map((point) => Math.min(...parts.map(([a, b]) => off(point, a, b)))));
}
