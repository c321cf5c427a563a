/** The signs of ink and what they count: numbers, ways of a step, units, widths (docs/INK.md, "Signs" and "Head"). */

/** Units of a cell, across and down. */
export const CELL_WIDE = 64, CELL_HIGH = 120;

/** Units of the page, across and down. */
export const PAGE_WIDE = 4096 * CELL_WIDE, PAGE_HIGH = 4096 * CELL_HIGH;

/** The first row in which a text may be ink. */
export const FIRST_ROW = 4000;

/** Characters that a text of the board has at most. */
export const MOST_SIGNS = 64;

/** Widths of strokes and sizes of letters, in units, by the width of an ink. */
export const WIDTHS = [6, 10, 15, 22, 34, 52, 80, 120, 180], SIZES = [84, 110, 140, 180, 230, 290, 370, 480, 620];

/** The colour of the member that drew: those below are the same for all. */
export const OWN = 9;

/** The sign that lifts the pen, and that begins a letter that does not stand for itself. */
export const TILDE = '~';

const SIGNS = [...'!#$%&\'()*+,-./0123456789:;<=>?@ABCDEFGHIJKLMNOPQRSTUVWXYZ[]^_`abcdefghijklmnopqrstuvwxyz{|}~'];
export const BASE = SIGNS.length;
const VALUES = new Map(SIGNS.map((sign, value) => [sign, value]));

/** The value of a sign, 0 to 91. NaN if it is none.
 * @type {(sign: string) => number} */
export const valueOf = (sign) => VALUES.get(sign) ?? NaN;

/** A number of base 92 in a number of signs.
 * @type {(number: number, many: number) => string} */
export function spelled(number, many) {
  let [signs, rest] = ['', number];
  for (let i = 0; i < many; i += 1) {
    signs = SIGNS[rest % BASE] + signs;
    rest = Math.floor(rest / BASE);
  }
  return signs;
}

/** The number that signs spell. NaN if one of them is none.
 * @type {(signs: string) => number} */
export const numberOf = (signs) => [...signs].reduce((number, sign) => number * BASE + valueOf(sign), 0);

/** The value of a step that goes nowhere; its greatest value; and how far it goes, in units of its scale. */
const STILL = 45, GREATEST = 90;
export const REACH = 100;

/** How far the n-th value from the still one goes: one unit each, then two, then five. */
const WAYS = Array.from({ length: STILL + 1 }, (_, n) => (n <= 20 ? n : n <= 35 ? 20 + 2 * (n - 20) : 50 + 5 * (n - 35)));

/** The way of a step, across or down, by its value. NaN if no step has it.
 * @type {(value: number) => number} */
export const wayOf = (value) => (value <= GREATEST ? Math.sign(value - STILL) * WAYS[Math.abs(value - STILL)] : NaN);

/** The value of the step that goes nearest to a way.
 * @type {(way: number) => number} */
export function valueFor(way) {
  const far = Math.min(REACH, Math.abs(way)), nth = far <= 20 ? far : far <= 50 ? 20 + (far - 20) / 2 : 35 + (far - 50) / 5;
  return STILL + Math.sign(way) * Math.round(nth);
}

/** Two signs of a lift are a number so much greater than the way. */
export const LIFT_STILL = BASE * BASE / 2;

/** Values that a pressure has above 0. */
export const FULL_PRESSURE = 90;

/** @type {(point: { x: number, y: number }) => boolean} */
export const isOnPage = ({ x, y }) => x >= 0 && y >= 0 && x < PAGE_WIDE && y < PAGE_HIGH;

/** The place on the page that is nearest to a point.
 * @template {{ x: number, y: number }} P
 * @param {P} point @returns {P} */
export const within = (point) => ({ ...point, x: Math.min(Math.max(point.x, 0), PAGE_WIDE - 1), y: Math.min(Math.max(point.y, 0), PAGE_HIGH - 1) });

/** The unit of the page that is nearest to a point.
 * @template {{ x: number, y: number }} P
 * @param {P} point @returns {P} */
export const settled = (point) => within({ ...point, x: Math.round(point.x), y: Math.round(point.y) });
