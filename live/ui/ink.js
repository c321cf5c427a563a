/** Ink: strokes, shapes, notes and letters as texts of the board (docs/INK.md). This reads them, and knows of no screen. A text that
 * does not read is no ink, and is shown as every other text. */
import { KINDS } from './inkkinds.js';
import { isAddress, readLetters } from './inkletters.js';
import { BASE, FIRST_ROW, FULL_PRESSURE, LIFT_STILL, TILDE, isOnPage, numberOf, valueOf, wayOf } from './inksigns.js';

/** @typedef {import('./types.js').Shape} Shape */
/** A point in units; whether the pen came to it without drawing; and how the pen was pressed there, from 0 to 1, if that was told.
 * @typedef {{ x: number, y: number, up?: boolean, pressure?: number }} Point */
/** What a text draws. The kind is its second sign; of a stroke the flag is the scale; `goesOn` says that it belongs to the ink before it.
 * @typedef {{ kind: string, colour: number, width: number, flag: number, goesOn: boolean, points: Point[], letters: string }} Ink */

/** The flags, and those of ink that goes on. */
export const FLAGS = '01234567', GOING_ON = 'abcdefgh';

/** The ink of a text, or null if it is none.
 * @type {(text: string) => Ink | null} */
export function readInk(text) {
  if (!/^~[ -~]{9,63}$/.test(text)) return null;
  const kind = text[1], style = valueOf(text[2]), flag = (FLAGS + GOING_ON).indexOf(text[3]), start = { x: numberOf(text.slice(4, 7)), y: numberOf(text.slice(7, 10)) };
  const reads = RESTS.get(kind), goesOn = flag > 7;
  if (!reads || !(style < 90) || flag < 0 || !isOnPage(start) || (goesOn && !KINDS[kind].goesOn)) return null;
  const ink = { kind, colour: Math.floor(style / 9), width: style % 9, flag: flag % 8, goesOn, points: [start], letters: '' };
  return reads(text.slice(10), ink) ? ink : null;
}

/** The ink of a drawing, or null.
 * @type {(shape: Shape) => Ink | null} */
export const inkOf = (shape) => (shape.op === 'text' && shape.y >= FIRST_ROW ? readInk(shape.text) : null);

/** What follows the head, by the kind. Each puts what it reads into the ink, and says whether that is all.
 * @type {Map<string, (rest: string, ink: Ink) => boolean>} */
const RESTS = new Map(Object.entries({ s: readSteps, h: readSteps, v: readSteps, l: readLine, r: readClosed, o: readClosed, d: readClosed, n: readClosed, t: readWriting, k: readLink }));

/** Two or three signs at a time, from the first to the last. */
class Signs {
  /** @param {string} text */
  constructor(text) {
    this.text = text;
    this.at = 0;
  }

  isAtEnd() {
    return this.at >= this.text.length;
  }

  /** Whether the pen is lifted next. */
  lifts() {
    const is = this.text[this.at] === TILDE;
    if (is) this.at += 1;
    return is;
  }

  /** The number of the next signs. NaN if there are fewer.
   * @param {number} many */
  number(many) {
    const end = this.at + many;
    let number = 0;
    for (; this.at < end; this.at += 1) number = number * BASE + valueOf(this.text[this.at]);
    return number;
  }

  pressure() {
    const value = this.number(1);
    return value <= FULL_PRESSURE ? value / FULL_PRESSURE : NaN;
  }

  point() {
    return { x: this.number(3), y: this.number(3) };
  }
}

/** The points of a stroke, from step to step.
 * @type {(rest: string, ink: Ink) => boolean} */
function readSteps(rest, { kind, flag, points }) {
  const signs = new Signs(rest), unit = 2 ** flag, { isPressed } = KINDS[kind];
  if (isPressed) points[0].pressure = signs.pressure();
  while (!signs.isAtEnd()) {
    const last = points[points.length - 1], up = signs.lifts();
    const [across, down] = up ? [signs.number(2) - LIFT_STILL, signs.number(2) - LIFT_STILL] : [wayOf(signs.number(1)), wayOf(signs.number(1))];
    /** @type {Point} */
    const point = { x: last.x + across * unit, y: last.y + down * unit };
    if (up) point.up = true;
    if (isPressed) point.pressure = signs.pressure();
    points.push(point);
  }
  return points.every((point) => isOnPage(point) && !Number.isNaN(point.pressure));
}

/** The other end of a line, and perhaps the point that it passes half way.
 * @type {(rest: string, ink: Ink) => boolean} */
function readLine(rest, { points }) {
  const signs = new Signs(rest);
  if (rest.length !== 6 && rest.length !== 12) return false;
  while (!signs.isAtEnd()) points.push(signs.point());
  return points.every(isOnPage);
}

/** @type {(rest: string, ink: Ink) => boolean} */
function readClosed(rest, ink) {
  const corner = new Signs(rest.slice(0, 6)).point(), letters = readLetters(rest.slice(6));
  ink.points.push(corner);
  ink.letters = letters ?? '';
  return isOnPage(corner) && letters !== null && (ink.flag & 3) < 3;
}

/** @type {(rest: string, ink: Ink) => boolean} */
function readWriting(rest, ink) {
  ink.letters = readLetters(rest) ?? '';
  return ink.letters !== '' && ink.flag <= 2;
}

/** @type {(rest: string, ink: Ink) => boolean} */
function readLink(rest, ink) {
  ink.letters = readLetters(rest) ?? '';
  return ink.flag === 0 && isAddress(ink.letters);
}
