/** What a page lies on: paper with dots, squares or lines, or without, as people chose for the page; and the page's edges. */
import { PAGE_HIGH, PAGE_WIDE } from './inksigns.js';

/** @typedef {import('./inkpaint.js').Box} Box */
/** @typedef {import('./notes.js').Paper} Paper */

/** Units from one dot, square or line to the next. */
const STEPS = { dots: 240, squares: 192, lines: 384 };

/** Points of the screen from one to the next, at least and at most: if the page becomes smaller they grow apart. Squares and lines stay as large as
 * they are, however large the page becomes. */
const APART = { dots: { least: 26, most: 60 }, squares: { least: 12, most: Infinity }, lines: { least: 12, most: Infinity } };

/** Points of the screen of a dot. */
const DOT = 1.4;

/** The colour of squares and lines that are saved or printed, and how wide they are, in units. */
export const RULED = { colour: '#d3dbe8', width: 4 };

/** Where lines of a step lie between two numbers.
 * @type {(from: number, to: number, step: number) => number[]} */
function between(from, to, step) {
  const first = Math.ceil(from / step);
  return Array.from({ length: Math.max(0, Math.floor(to / step) - first + 1) }, (_, i) => (first + i) * step);
}

/** The squares or lines in a box, as a path in units; of dots, and without paper, none.
 * @type {(paper: Paper, box: Box, step?: number) => string} */
export function ruled(paper, { x0, y0, x1, y1 }, step = paper === 'none' ? 0 : STEPS[paper]) {
  if (paper === 'dots' || paper === 'none') return '';
  const down = paper === 'squares' ? between(x0, x1, step).map((x) => `M${x} ${y0}V${y1}`) : [];
  return [...down, ...between(y0, y1, step).map((y) => `M${x0} ${y}H${x1}`)].join('');
}

/** How far apart they are in units, by the points of a unit.
 * @type {(paper: 'dots' | 'squares' | 'lines', scale: number) => number} */
function stepAt(paper, scale) {
  const { least, most } = APART[paper];
  let step = STEPS[paper];
  while (step * scale < least) step *= 2;
  while (step * scale > most) step /= 2;
  return step;
}

/** Paints what the part of the page in view lies on, and what is beyond its edges.
 * @param {CanvasRenderingContext2D} brush in points of the screen @param {import('./view.js').View} view @param {Record<string, string>} colours @param {Paper} paper */
export function paintGround(brush, view, colours, paper) {
  const scale = view.wide / 64, [left, top] = view.corner(), /** @type {Box} */ page = { x0: 0, y0: 0, x1: PAGE_WIDE * scale, y1: PAGE_HIGH * scale };
  const box = { x0: Math.max(left, page.x0), y0: Math.max(top, page.y0), x1: Math.min(left + view.width, page.x1), y1: Math.min(top + view.height, page.y1) };
  if (paper === 'dots') {
    const step = stepAt(paper, scale) * scale;
    brush.fillStyle = colours.dot;
    for (const y of between(box.y0, box.y1, step)) for (const x of between(box.x0, box.x1, step)) brush.fillRect(Math.round(x - left), Math.round(y - top), DOT, DOT);
  } else if (paper !== 'none') paintRules(brush, paper, box, stepAt(paper, scale) * scale, [left, top], colours.rule);
  paintBeyond(brush, view, box, [left, top], colours);
}

/** @type {(brush: CanvasRenderingContext2D, paper: Paper, box: Box, step: number, corner: number[], colour: string) => void} */
function paintRules(brush, paper, box, step, [left, top], colour) {
  brush.fillStyle = colour;
  // whole points, so that each is as sharp as the others
  for (const y of between(box.y0, box.y1, step)) brush.fillRect(box.x0 - left, Math.round(y - top), box.x1 - box.x0, 1);
  for (const x of paper === 'squares' ? between(box.x0, box.x1, step) : []) brush.fillRect(Math.round(x - left), box.y0 - top, 1, box.y1 - box.y0);
}

/** What is beyond the page, and its edge.
 * @type {(brush: CanvasRenderingContext2D, view: import('./view.js').View, box: Box, corner: number[], colours: Record<string, string>) => void} */
function paintBeyond(brush, { width, height }, { x0, y0, x1, y1 }, [left, top], colours) {
  const [x, y, right, bottom] = [x0 - left, y0 - top, x1 - left, y1 - top];
  brush.fillStyle = colours.desk;
  for (const [from, over, wide, high] of [[0, 0, width, y], [0, bottom, width, height - bottom], [0, y, x, bottom - y], [right, y, width - right, bottom - y]]) {
    if (wide > 0 && high > 0) brush.fillRect(from, over, wide, high);
  }
  brush.fillStyle = colours.edge;
  if (x > 0) brush.fillRect(x - 1, y, 1, bottom - y);
  if (y > 0) brush.fillRect(x, y - 1, right - x, 1);
  if (right < width) brush.fillRect(right, y, 1, bottom - y);
  if (bottom < height) brush.fillRect(x, bottom, right - x, 1);
}
