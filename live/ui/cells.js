/** The cells of a page, and which of them a drawing covers. No part of this knows of a screen. */

/** The columns of a page, which are also its rows. */
export const SIDE = 4096;

/** @typedef {{ x: number, y: number }} Cell */
/** @typedef {import('./types.js').Shape} Shape */
/** @typedef {import('./types.js').Drawing} Drawing */
/** @typedef {(x: number, y: number, glyph: string) => void} See */
/** Some columns and rows, from the first to the last of each.
 * @typedef {{ x0: number, y0: number, x1: number, y1: number }} Box */

/** All cells of a page. */
export const PAGE = { x0: 0, y0: 0, x1: SIDE - 1, y1: SIDE - 1 };

/** @type {(n: number, low: number, high: number) => number} */
export const clamp = (n, low, high) => Math.min(Math.max(n, low), high);

/** @type {(x: number, y: number, box: Box) => boolean} */
const isIn = (x, y, box) => x >= box.x0 && x <= box.x1 && y >= box.y0 && y <= box.y1;

/** A drawing's name on its page.
 * @type {(drawing: { source: number, seq: number }) => string} */
export const nameOf = (drawing) => `${drawing.source} ${drawing.seq}`;

/** Which of two drawings is painted first, as the host orders them: by time, source and number. Times are decimal, without zeros before them.
 * @type {(one: Drawing, other: Drawing) => number} below 0 for the first */
export function orderOf(one, other) {
  if (one.time !== other.time) return one.time.length - other.time.length || (one.time < other.time ? -1 : 1);
  return one.source - other.source || one.seq - other.seq;
}

/** The steps of a way from a to b, one cell each, that are from `low` to `high`: the first and the last.
 * @type {(a: number, b: number, low: number, high: number) => [number, number]} */
function stepsWithin(a, b, low, high) {
  const far = Math.abs(b - a);
  return b < a ? [Math.max(0, a - high), Math.min(far, a - low)] : [Math.max(0, low - a), Math.min(far, high - a)];
}

/** The cells of a line that are in a box, as a host paints them. What lies outside costs nothing.
 * @type {(x0: number, y0: number, x1: number, y1: number, see: (x: number, y: number) => void, box?: Box) => void} */
export function coverLine(x0, y0, x1, y1, see, box = PAGE) {
  const [across, down] = [Math.abs(x1 - x0), Math.abs(y1 - y0)], steps = Math.max(across, down);
  const [first, last] = across === steps ? stepsWithin(x0, x1, box.x0, box.x1) : stepsWithin(y0, y1, box.y0, box.y1);
  /** @type {(a: number, b: number, k: number) => number} */
  const at = (a, b, k) => a + Math.sign(b - a) * Math.floor((2 * k * Math.abs(b - a) + steps) / (2 * steps || 1));
  // the other way only grows or only shrinks: where both ends are beside the box, all between them are
  const isFlat = across === steps, [a, b] = isFlat ? [at(y0, y1, first), at(y0, y1, last)] : [at(x0, x1, first), at(x0, x1, last)];
  const [low, high] = isFlat ? [box.y0, box.y1] : [box.x0, box.x1];
  if (Math.max(a, b) < low || Math.min(a, b) > high) return;
  for (let k = first; k <= last; k += 1) {
    const x = at(x0, x1, k), y = at(y0, y1, k);
    if (isIn(x, y, box)) see(x, y);
  }
}

/** The four sides of a rectangle, as far as they are in a box.
 * @type {typeof coverLine} */
export function coverFrame(x0, y0, x1, y1, see, box = PAGE) {
  for (const y of [y0, y1]) coverLine(x0, y, x1, y, see, box);
  for (const x of [x0, x1]) coverLine(x, y0, x, y1, see, box);
}

/** Whether a drawing may cover a cell of a box: the box about it meets the box, and of a frame more than the inside does.
 * @type {(shape: Shape, box: Box) => boolean} */
function mayCover(shape, { x0, y0, x1, y1 }) {
  if (shape.op === 'text') return shape.y >= y0 && shape.y <= y1 && shape.x <= x1 && shape.x + shape.text.length > x0;
  const left = Math.min(shape.x0, shape.x1), right = Math.max(shape.x0, shape.x1), top = Math.min(shape.y0, shape.y1), bottom = Math.max(shape.y0, shape.y1);
  if (right < x0 || left > x1 || bottom < y0 || top > y1) return false;
  return shape.op === 'line' || left >= x0 || right <= x1 || top >= y0 || bottom <= y1;
}

/** Shows each cell of a box that a drawing covers, with its glyph. What lies outside costs nothing.
 * @type {(shape: Shape, see: See, box?: Box) => void} */
export function cover(shape, see, box = PAGE) {
  if (!mayCover(shape, box)) return undefined;
  if (shape.op !== 'text') return (shape.op === 'line' ? coverLine : coverFrame)(shape.x0, shape.y0, shape.x1, shape.y1, (x, y) => see(x, y, shape.glyph), box);
  const [first, last] = stepsWithin(shape.x, shape.x + shape.text.length - 1, box.x0, box.x1);
  for (let i = first; i <= last; i += 1) see(shape.x + i, shape.y, shape.text[i]);
  return undefined;
}

/** Whether a drawing covers a cell of a box.
 * @type {(shape: Shape, box: Box) => boolean} */
export function touches(shape, box) {
  let isCovered = false;
  cover(shape, () => { isCovered = true; }, box);
  return isCovered;
}

/** The words of an operation that draws a shape.
 * @type {(shape: Shape) => string} */
export function spell(shape) {
  if (shape.op === 'text') return `text ${shape.x} ${shape.y} "${shape.text.replace(/["\\]/g, '\\$&')}"`;
  return `${shape.op} ${shape.x0} ${shape.y0} ${shape.x1} ${shape.y1} ${shape.glyph}`;
}

/** The least rectangle about a drawing.
 * @type {(shape: Shape) => Box} */
export function boxOf(shape) {
  if (shape.op === 'text') return { x0: shape.x, y0: shape.y, x1: shape.x + shape.text.length - 1, y1: shape.y };
  return { x0: Math.min(shape.x0, shape.x1), y0: Math.min(shape.y0, shape.y1), x1: Math.max(shape.x0, shape.x1), y1: Math.max(shape.y0, shape.y1) };
}

/** The least rectangle about some drawings, of which there is one at least.
 * @type {(shapes: Shape[]) => Box} */
export function boxAbout(shapes) {
  return shapes.map(boxOf).reduce((a, b) => ({ x0: Math.min(a.x0, b.x0), y0: Math.min(a.y0, b.y0), x1: Math.max(a.x1, b.x1), y1: Math.max(a.y1, b.y1) }));
}

/** A shape elsewhere, some columns and rows on.
 * @type {(shape: Shape, dx: number, dy: number) => Shape} */
export function shifted(shape, dx, dy) {
  if (shape.op === 'text') return { op: 'text', x: shape.x + dx, y: shape.y + dy, text: shape.text };
  const { op, x0, y0, x1, y1, glyph } = shape;
  return { op, x0: x0 + dx, y0: y0 + dy, x1: x1 + dx, y1: y1 + dy, glyph };
}

/** As much of a way as keeps all shapes on the page.
 * @type {(shapes: Shape[], dx: number, dy: number) => [number, number]} */
export function kept(shapes, dx, dy) {
  const { x0, y0, x1, y1 } = boxAbout(shapes);
  return [clamp(dx, -x0, Math.max(-x0, SIDE - 1 - x1)), clamp(dy, -y0, Math.max(-y0, SIDE - 1 - y1))];
}
