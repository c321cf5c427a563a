/** Shapes that are groups of lines and texts, since the format has no such drawing of its own. */
import { SIDE, coverLine } from './cells.js';

/** @typedef {import('./cells.js').Cell} Cell */
/** @typedef {import('./types.js').Shape} Shape */

/** How many times as high as wide a cell is. */
const TALL = 1.85;

/** Drawops of a stroke of the pen in each second, and in a shorter stroke too. */
const MOST_A_SECOND = 10;

/** Characters of one text, of one import, and drawops of one step. */
export const MOST_LETTERS = 64, MOST_AT_ONCE = 1000;

/** @type {(from: Cell, to: Cell, glyph: string) => Shape} */
const line = (from, to, glyph) => ({ op: 'line', x0: from.x, y0: from.y, x1: to.x, y1: to.y, glyph });

/** A line with a head in the direction in which it goes.
 * @type {(from: Cell, to: Cell, glyph: string) => Shape[]} */
export function arrow(from, to, glyph) {
  const [dx, dy] = [to.x - from.x, to.y - from.y], isFlat = Math.abs(dx) >= Math.abs(dy) * TALL;
  const head = isFlat ? (dx < 0 ? '<' : '>') : (dy < 0 ? '^' : 'v');
  return [line(from, to, glyph), line(to, to, head)];
}

/** A rectangle that is filled: by its rows or its columns, whichever are fewer.
 * @type {(from: Cell, to: Cell, glyph: string) => Shape[]} */
export function filled(from, to, glyph) {
  const [x0, x1] = [Math.min(from.x, to.x), Math.max(from.x, to.x)], [y0, y1] = [Math.min(from.y, to.y), Math.max(from.y, to.y)];
  if (y1 - y0 <= x1 - x0) return Array.from({ length: y1 - y0 + 1 }, (_, i) => line({ x: x0, y: y0 + i }, { x: x1, y: y0 + i }, glyph));
  return Array.from({ length: x1 - x0 + 1 }, (_, i) => line({ x: x0 + i, y: y0 }, { x: x0 + i, y: y1 }, glyph));
}

/** How far a cell is from the way between two others, in widths of a cell.
 * @type {(cell: Cell, a: Cell, b: Cell) => number} */
function distance(cell, a, b) {
  const [px, py, vx, vy] = [cell.x - a.x, (cell.y - a.y) * TALL, b.x - a.x, (b.y - a.y) * TALL];
  const part = Math.min(1, Math.max(0, (px * vx + py * vy) / (vx * vx + vy * vy || 1)));
  return Math.hypot(px - part * vx, py - part * vy);
}

/** The corners of a path, so few that no cell is left farther away than `most` corners allow: the farthest cell becomes a corner
 * until all are near, or there are as many. The first and the last cell are corners.
 * @type {(path: Cell[], most: number, near?: number) => Cell[]} */
export function simplify(path, most, near = 0.75) {
  const corners = [0, path.length - 1];
  while (corners.length < Math.min(most, path.length)) {
    let [worst, far] = [-1, near];
    for (let i = 1, end = 1; i < path.length - 1; i += 1) {
      if (i > corners[end]) end += 1;
      const off = distance(path[i], path[corners[end - 1]], path[corners[end]]);
      if (off > far) [worst, far] = [i, off];
    }
    if (worst < 0) break;
    corners.push(worst);
    corners.sort((a, b) => a - b);
  }
  return corners.map((i) => path[i]);
}

/** A stroke of the pen: the lines between the corners of its path. One of a second takes ten drawops at most.
 * @type {(path: Cell[], milliseconds: number, glyph: string) => Shape[]} */
export function stroke(path, milliseconds, glyph) {
  const corners = simplify(path, 1 + Math.floor(MOST_A_SECOND * Math.max(1, milliseconds / 1000)));
  const lines = corners.slice(1).map((to, i) => line(corners[i], to, glyph));
  return lines.length ? lines : [line(path[0], path[0], glyph)];
}

/** The cells from one to another, so that a fast hand leaves nothing out.
 * @type {(from: Cell, to: Cell) => Cell[]} */
export function between(from, to) {
  /** @type {Cell[]} */
  const cells = [];
  coverLine(from.x, from.y, to.x, to.y, (x, y) => cells.push({ x, y }));
  return cells;
}

/** Many lines of text from a cell on, each in pieces that a drawop can have, as far as the page goes. Spaces at the ends are left out.
 * @type {(text: string, at: Cell) => Shape[]} */
export function writing(text, at) {
  return text.split('\n').flatMap((row, i) => {
    const shown = row.trimEnd(), first = shown.length - shown.trimStart().length;
    const pieces = shown.slice(first).match(new RegExp(`.{1,${MOST_LETTERS}}`, 'g')) ?? [];
    return pieces.map((piece, k) => /** @type {Shape} */ ({ op: 'text', x: at.x + first + k * MOST_LETTERS, y: at.y + i, text: piece }));
  }).filter((shape) => shape.op === 'text' && shape.x + shape.text.length <= SIDE && shape.y < SIDE);
}

/** A text as far as the format has its letters: marks are taken off letters, tabs are spaces, and what is left out is reported.
 * @type {(text: string) => { plain: string, lost: string[] }} */
export function plainOf(text) {
  const bare = text.replace(/\r\n?/g, '\n').replace(/\t/g, '    ').replace(/[\u2018\u2019]/g, "'").replace(/[\u201c\u201d\u201e]/g, '"')
    .replace(/[\u2013\u2014]/g, '-').replace(/\u2026/g, '...').replace(/\u00a0/g, ' ').replace(/\u00df/g, 'ss');
  const plain = bare.normalize('NFD').replace(/\p{M}/gu, '').replace(/[^\n -~]/gu, '?');
  return { plain, lost: [...new Set(text.match(/[^\s -~]/gu) ?? [])] };
}
