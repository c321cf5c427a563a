/** Ink (docs/INK.md): strokes, shapes and letters as texts of a page. `stroke`, `shape`, `words` and `link` write them, and `read` reads one.
 *
 *     let n = 0;
 *     for (const text of stroke([{ x: 6400, y: 12000 }, { x: 6500, y: 12040 }], { colour: 1 })) await member.draw('1/1', placed(text, n++));
 *
 * Points are in units: a cell has 64 across and 120 down. */
import { drawingIn } from './drawings.js';
import { placed as placeOf, readInk, writeLink, writeShape, writeStroke, writeWords } from './inks.js';

/** A point; whether the pen came to it without drawing; and how it was pressed there, from 0 to 1.
 * @typedef {{ x: number, y: number, up?: boolean, pressure?: number }} Point */

/** What a text draws. Of a stroke the flag is the scale; `goesOn` says that it belongs to the ink before it.
 * @typedef {{ kind: string, colour: number, width: number, flag: number, goesOn: boolean, points: Point[], letters: string }} Ink */

const FIRST_ROW = 4000, COLOURS = 10, WIDTHS = 9;

/** @param {number} colour @param {number} width */
function lookOf(colour, width) {
  const isIn = (/** @type {number} */ value, /** @type {number} */ many) => Number.isInteger(value) && value >= 0 && value < many;
  if (!isIn(colour, COLOURS) || !isIn(width, WIDTHS)) throw new RangeError('a colour is 0 to 9, and a width 0 to 8');
  return { colour, width };
}

/** The texts of a stroke (`s`), a stroke with pressure (`v`) or a highlighter (`h`). Each step has 2^scale units as its unit. Texts after the first go on
 * from the one before, so no drawing comes between them.
 * @param {Point[]} points @param {{ colour?: number, width?: number, kind?: 's' | 'v' | 'h', scale?: number }} look */
export function stroke(points, { colour = 0, width = 2, kind = 's', scale = 1 } = {}) {
  if (!points.length) throw new RangeError('a stroke has points');
  return writeStroke({ ...lookOf(colour, width), kind, scale }, points).map(({ text }) => text);
}

/** The texts of a line (`l`: its ends, and perhaps the point that it passes half way), or by two corners of a frame (`r`), an ellipse (`o`), a diamond
 * (`d`) or a note (`n`), with letters.
 * @param {'l' | 'r' | 'o' | 'd' | 'n'} kind @param {Point[]} points @param {{ colour?: number, width?: number, flag?: number, letters?: string }} look */
export function shape(kind, points, { colour = 0, width = 2, flag = 0, letters = '' } = {}) {
  const isRight = kind === 'l' ? points.length === 2 || points.length === 3 : points.length === 2 && (flag & 3) < 3;
  if (!isRight || flag < 0 || flag > 7 || (kind === 'l' && letters)) throw new RangeError('no such shape');
  return writeShape(kind, lookOf(colour, width), flag, points, letters);
}

/** The texts of letters of any language, from their upper left corner.
 * @param {Point} at @param {string} letters @param {{ colour?: number, size?: number, font?: number }} look */
export function words(at, letters, { colour = 0, size = 2, font = 0 } = {}) {
  if (![0, 1, 2].includes(font)) throw new RangeError('a font is 0 to 2');
  return writeWords(lookOf(colour, size), font, at, letters);
}

/** The text of a link, or null where it is none, or too long.
 * @param {Point} at @param {string} address @param {{ colour?: number, width?: number }} look */
export function link(at, address, { colour = 6, width = 2 } = {}) {
  return writeLink(lookOf(colour, width), at, address);
}

/** The n-th ink of a page, from 0, where it covers no other.
 * @param {string} text @param {number} n @returns {import('./drawings.js').Text} */
export function placed(text, n) {
  const { x, y } = placeOf(text, n);
  return { kind: 'text', x, y, text };
}

/** The ink of a text, or null if it is none.
 * @param {string} text @returns {Ink | null} */
export function read(text) {
  return readInk(text);
}

/** The ink of a drawop, or null if it is none.
 * @param {import('./drawings.js').Drawop} drawop @returns {Ink | null} */
export function inkOf({ operation }) {
  const drawing = drawingIn(operation);
  return drawing?.kind === 'text' && drawing.y >= FIRST_ROW ? readInk(drawing.text) : null;
}
