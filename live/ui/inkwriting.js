/** Ink as texts: strokes, shapes and letters, the same ink elsewhere, and where a text stands (docs/INK.md, "Writing"). */
import { FLAGS, GOING_ON, readInk } from './ink.js';
import { along, bend, isCorner, off } from './inkcurves.js';
import { KINDS, isClosed, isStroke } from './inkkinds.js';
import { inTexts, isAddress, writeLetters } from './inkletters.js';
import { CELL_WIDE, FIRST_ROW, FULL_PRESSURE, LIFT_STILL, MOST_SIGNS, PAGE_HIGH, PAGE_WIDE, REACH, TILDE, isOnPage, settled, spelled, valueFor, wayOf } from './inksigns.js';

/** @typedef {import('./ink.js').Point} Point */
/** @typedef {import('./ink.js').Ink} Ink */
/** @typedef {import('./types.js').Shape} Shape */
/** How a stroke is drawn, the finest scale that it needs, and whether its points may lie elsewhere on the curve through them: those of a hand may.
 * Strokes of one text have one nib.
 * @typedef {{ kind: string, colour: number, width: number, scale: number, isFree?: boolean }} Nib */
/** How far a stroke is written: the number of the last point, how much of the way from it to the next, and where that is.
 * @typedef {{ upTo: number, part: number, end: Point }} Place */
/** A text of a stroke, with how far its points are off at most.
 * @typedef {Place & { text: string, off: number }} Written */
/** The signs of a step or a lift, and where it ends.
 * @typedef {{ signs: string, end: Point }} Way */

const COARSEST = 7;

/** The points of a text in a coarser scale than the look's are off by at most this many units of the look's. */
const COARSE = 2;

/** Units of a scale from one place to the next where a curve is looked at. */
const DENSE = 4;

/** Of the way to a point so much, the last part of it, is looked through for a place that a step meets better. */
const SLIDE = 0.35;

/** To end so far before a point is as bad as this part of it beside the curve. */
const BEFORE = 0.1;

/** @type {(kind: string, look: { colour: number, width: number }, flag: number, goesOn: boolean, at: Point) => string} */
const head = (kind, { colour, width }, flag, goesOn, at) => TILDE + kind + spelled(9 * colour + width, 1) + (goesOn ? GOING_ON : FLAGS)[flag] + spelled(at.x, 3) + spelled(at.y, 3);

/** The value of a step of one axis that ends nearest to a place, and on the page.
 * @type {(from: number, to: number, unit: number, many: number) => number} */
function valueTo(from, to, unit, many) {
  const value = valueFor((Math.min(Math.max(to, 0), many - 1) - from) / unit), end = from + wayOf(value) * unit;
  return end < 0 ? value + 1 : end >= many ? value - 1 : value;
}

/** @type {(a: Point, b: Point) => number} */
const gap = (a, b) => Math.max(Math.abs(a.x - b.x), Math.abs(a.y - b.y));

/** Points of the curve from a point of a stroke to the next, so dense that a step is many of them.
 * @type {(points: Point[], i: number, unit: number) => Point[]} */
function curved(points, i, unit) {
  const from = points[i], to = points[i + 1], [b, c] = bend(points, i), many = Math.ceil(gap(from, to) / (DENSE * unit));
  const { pressure: first = 0.5 } = from, { pressure: last = 0.5 } = to;
  return Array.from({ length: many + 1 }, (_, k) => ({ ...settled(along(from, b, c, to, k / many)), pressure: first + ((last - first) * k) / many }));
}

/** The place on a curve that is nearest to a point.
 * @type {(curve: Point[], point: Point) => number} */
const nearestOn = (curve, point) => curve.reduce((best, at, k) => (gap(at, point) < gap(curve[best], point) ? k : best), 0);

/** A text that is filled with a stroke in one scale, from a place on. */
class Filling {
  /** @param {Nib} look @param {number} scale @param {Point[]} points @param {Place} from @param {boolean} goesOn */
  constructor({ kind, colour, width, isFree = false }, scale, points, { upTo, part, end }, goesOn) {
    // a text that goes on from a lift begins where the pen is put down, if that is another point
    const next = points[upTo + 1], isPutDown = goesOn && next?.up && gap(end, settled(next)) > 0;
    this.points = points;
    this.upTo = isPutDown ? upTo + 1 : upTo;
    this.part = part;
    this.end = isPutDown ? settled(next) : end;
    /** How far the points are off at most. */
    this.off = 0;
    /** The way to the next point, if it needs several steps, and the place on it that was come to.
     * @type {Point[]} */
    this.curve = [];
    this.place = 0;
    this.isPressed = Boolean(KINDS[kind].isPressed);
    this.isFree = isFree;
    this.unit = 2 ** scale;
    this.text = head(kind, { colour, width }, scale, goesOn, this.end) + this.pressed(this.end);
  }

  /** Goes on as far as there is room: with one step to a point that this ends near to, else with more along the curve, off it by as little as
   * told.
   * @param {number} near @param {number} fine @returns {Written} */
  fill(near, fine) {
    for (let next = this.points[this.upTo + 1], hasRoom = true; next && hasRoom; next = this.points[this.upTo + 1]) {
      const step = next.up ? null : this.slid(), way = step ?? this.liftTo(next), stride = step && step.aside > near ? this.stride(fine) : null;
      hasRoom = stride ? this.goTo(stride) : way !== null && this.pass(way);
    }
    const { text, upTo, part, end, off: worst } = this;
    return { text, upTo, part, end, off: worst };
  }

  /** A step to the next point, or to a place on the curve a little before it, if steps end so much nearer to the curve there, and how far off it ends. Corners and
   * ends stay where they are.
   * @returns {Way & { aside: number }} */
  slid() {
    const { points, upTo, part, unit } = this, [from, to, after] = points.slice(upTo, upTo + 3), way = this.stepTo(to);
    let [best, aside, least] = [-1, gap(way.end, to), gap(way.end, to)];
    if (!this.isFree || !after || after.up || isCorner(from, to, after)) return { ...way, aside };
    const [b, c] = bend(points, upTo), most = SLIDE * (1 - part), many = Math.ceil((gap(from, to) * most) / unit), at = (/** @type {number} */ k) => along(from, b, c, to, 1 - (most * k) / many);
    for (let k = 0, here = at(0), last = here; k <= many && k * unit * BEFORE < least; k += 1) {
      const next = at(k + 1), { end } = this.reached(here), beside = off(end, next, last), costs = beside + BEFORE * gap(end, to);
      if (costs < least) [best, aside, least] = [k, beside, costs];
      [last, here] = [here, next];
    }
    const { pressure: first = 0.5 } = from, { pressure: last = 0.5 } = to;
    return { ...best < 0 ? way : this.stepTo({ ...at(best), pressure: last + ((first - last) * most * best) / many }), aside };
  }

  /** Comes to the next point, or near to it, if there is room.
   * @param {Way & { aside?: number }} way */
  pass(way) {
    if (!this.add(way)) return false;
    this.off = Math.max(this.off, way.aside ?? gap(this.end, this.points[this.upTo + 1]));
    [this.upTo, this.part, this.curve] = [this.upTo + 1, 0, []];
    return true;
  }

  /** Comes to a place on the curve, if there is room.
   * @param {{ place: number, aside: number }} stride */
  goTo({ place, aside }) {
    if (!this.add(this.stepTo(this.curve[place]))) return false;
    this.off = Math.max(this.off, aside);
    [this.place, this.part] = [place, place / (this.curve.length - 1)];
    return true;
  }

  /** The farthest place on the curve to the next point to which a step goes that ends nowhere far from the curve, and how far that is: of a hand's curve
   * no farther than several steps to the point, as long as one another, would go. Null if there is none before the point.
   * @param {number} fine @returns {{ place: number, aside: number } | null} */
  stride(fine) {
    if (!this.curve.length) {
      this.curve = curved(this.points, this.upTo, this.unit);
      this.place = this.part ? nearestOn(this.curve, this.end) : 0;
    }
    const { curve, place, unit } = this, last = curve.length - 1, isNear = (/** @type {number} */ k) => gap(this.end, curve[k]) <= REACH * unit;
    let [best, far] = [/** @type {{ place: number, aside: number } | null} */ (null), place];
    while (far < last - 1 && isNear(far + 1)) far += 1;
    // a step that ended before the last point has that way to go first
    if (far === place && place < last && !isNear(place + 1) && gap(this.end, curve[place]) > unit) return { place, aside: 0 };
    if (this.isFree && far > place) far = Math.min(far, place + Math.ceil((last - place) / Math.max(2, Math.ceil((last - place) / (far - place)))));
    for (let k = place + 1; k <= far; k += 1) {
      const { end } = this.stepTo(curve[k]), aside = Math.min(off(end, curve[k - 1], curve[k]), off(end, curve[k], curve[k + 1]));
      if (!best || aside <= Math.max(best.aside, fine)) best = { place: k, aside };
    }
    return best;
  }

  /** @param {Way} way */
  add({ signs, end }) {
    const isIn = this.text.length + signs.length <= MOST_SIGNS;
    if (isIn) [this.text, this.end] = [this.text + signs, end];
    return isIn;
  }

  /** Where a step towards a point ends, and its values.
   * @param {Point} to */
  reached(to) {
    const { end: { x, y }, unit } = this, values = [valueTo(x, to.x, unit, PAGE_WIDE), valueTo(y, to.y, unit, PAGE_HIGH)];
    return { values, end: { x: x + wayOf(values[0]) * unit, y: y + wayOf(values[1]) * unit } };
  }

  /** A step towards a point.
   * @param {Point} to @returns {Way} */
  stepTo(to) {
    const { values, end } = this.reached(to);
    return { signs: values.map((value) => spelled(value, 1)).join('') + this.pressed(to), end: { ...end, pressure: to.pressure } };
  }

  /** A lift to a point. Null if that is too far, or it would end off the page.
   * @param {Point} to @returns {Way | null} */
  liftTo(to) {
    const { end: { x, y }, unit } = this, ways = [Math.round((to.x - x) / unit), Math.round((to.y - y) / unit)];
    const end = { x: x + ways[0] * unit, y: y + ways[1] * unit, pressure: to.pressure };
    if (!isOnPage(end) || ways.some((way) => way < -LIFT_STILL || way >= LIFT_STILL)) return null;
    return { signs: TILDE + ways.map((way) => spelled(way + LIFT_STILL, 2)).join('') + this.pressed(to), end };
  }

  /** @param {Point} point */
  pressed({ pressure = 0.5 }) {
    return this.isPressed ? spelled(Math.round(FULL_PRESSURE * Math.min(1, Math.max(0, pressure))), 1) : '';
  }
}

/** The next text of a stroke. It has a coarser scale than that of the look if it holds more so, and is nearer than it need be; of a hand a finer one if it is nearer so, and
 * holds no less.
 * @type {(look: Nib, points: Point[], from: Place, goesOn: boolean) => Written} */
function nextText(look, points, from, goesOn) {
  const unit = 2 ** look.scale, filled = (/** @type {number} */ scale, /** @type {number} */ near, /** @type {number} */ fine) => new Filling(look, scale, points, from, goesOn).fill(near, fine);
  const held = (/** @type {Written} */ { upTo, part }) => upTo + part;
  let best = filled(look.scale, 2.5 * unit, unit / 2);
  const finer = look.isFree && look.scale ? filled(look.scale - 1, 1.25 * unit, unit / 4) : best;
  if (finer.off < best.off && held(finer) >= held(best) && finer.text.length <= best.text.length) best = finer;
  for (let scale = look.scale + 1; scale <= COARSEST && best.upTo + 1 < points.length; scale += 1) {
    const other = filled(scale, COARSE * unit, unit / 2);
    if (other.off > COARSE * unit) break;
    if (held(other) > held(best)) best = other;
  }
  return best;
}

/** The texts of a stroke, and how far it is written by each. Of a stroke that goes on the first point is the end of the text before.
 * @type {(look: Nib, points: Point[], goesOn?: boolean) => Written[]} */
export function writeStroke(look, points, goesOn = false) {
  const texts = [nextText(look, points, { upTo: 0, part: 0, end: settled(points[0]) }, goesOn)];
  while (texts[texts.length - 1].upTo + 1 < points.length) texts.push(nextText(look, points, texts[texts.length - 1], true));
  return texts;
}

/** The texts of a line, whose points are its ends and perhaps the one that it passes half way, or of a closed shape with its letters.
 * @type {(kind: string, look: { colour: number, width: number }, flag: number, points: Point[], letters?: string) => string[]} */
export function writeShape(kind, look, flag, points, letters = '') {
  const [start, ...others] = points.map(settled), corners = others.map(({ x, y }) => spelled(x, 3) + spelled(y, 3)).join('');
  return inTexts(head(kind, look, flag, false, start) + corners, writeLetters(letters), head('t', look, 0, true, start));
}

/** The texts of letters from their upper left corner: none if there are no letters.
 * @type {(look: { colour: number, width: number }, font: number, at: Point, letters: string) => string[]} */
export function writeWords(look, font, at, letters) {
  const start = settled(at);
  return letters ? inTexts(head('t', look, font, false, start), writeLetters(letters), head('t', look, font, true, start)) : [];
}

/** The text of a link. Null if it is none, or too long for a text.
 * @type {(look: { colour: number, width: number }, at: Point, address: string) => string | null} */
export function writeLink(look, at, address) {
  const text = head('k', look, 0, false, settled(at)) + writeLetters(address).join('');
  return isAddress(address) && text.length <= MOST_SIGNS ? text : null;
}

/** As much of a way in units as keeps all points of some inks on the page.
 * @type {(inks: Ink[], across: number, down: number) => [number, number]} */
export function keptInks(inks, across, down) {
  let [dx, dy] = [Math.round(across), Math.round(down)];
  for (const { points } of inks) {
    for (const { x, y } of points) {
      dx = Math.min(Math.max(dx, -x), PAGE_WIDE - 1 - x);
      dy = Math.min(Math.max(dy, -y), PAGE_HIGH - 1 - y);
    }
  }
  return [dx, dy];
}

/** The text of the same ink, some whole units on: steps stay, and the points that stand in it as such are others. Null if it would leave
 * the page.
 * @type {(text: string, across: number, down: number) => string | null} */
export function movedInk(text, across, down) {
  const ink = readInk(text), [dx, dy] = ink ? keptInks([ink], across, down) : [NaN, NaN];
  if (!ink || dx !== across || dy !== down) return null;
  const points = isStroke(ink.kind) ? ink.points.slice(0, 1) : ink.points;
  return text.slice(0, 4) + points.map(({ x, y }) => spelled(x + dx, 3) + spelled(y + dy, 3)).join('') + text.slice(4 + 6 * points.length);
}

/** The text of the same ink in another colour. Null if it is none.
 * @type {(text: string, colour: number) => string | null} */
export const recoloured = (text, colour) => restyled(text, { colour });

/** The text of the same ink in another look, as far as it has one: widths are of strokes and shapes, sizes and fonts of letters. Null if it is none.
 * @type {(text: string, look: Partial<import('./style.js').Look>) => string | null} */
export function restyled(text, look) {
  const ink = readInk(text);
  if (!ink) return null;
  const { kind, colour = 0, width, flag, goesOn } = ink, { width: own, looks = [] } = KINDS[kind];
  const dashes = look.isDashed === undefined ? flag & 4 : look.isDashed ? 4 : 0, heads = look.hasTwo === undefined || !(flag & 1) ? flag & 3 : look.hasTwo ? 3 : 1;
  const fill = isClosed(kind) ? look.fill ?? flag & 3 : heads;
  const other = { colour: look.colour ?? look.bright ?? colour, width: own ? look[own] ?? width : width };
  const sign = looks.includes('dashed') ? fill + dashes : own === 'size' ? look.font ?? flag : flag;
  return text.slice(0, 2) + spelled(9 * other.colour + other.width, 1) + (goesOn ? GOING_ON : FLAGS)[sign] + text.slice(4);
}

/** Columns of inks in a row, and rows. */
const COLUMNS = 63, ROWS = 96;

/** How many cells further on an ink stands that is drawn in the place of others, and one that is of a group with the ink before it of its source. */
const AGAIN = 1, JOINED = 2;

/** The n-th ink of a page, so that none covers another.
 * @type {(text: string, n: number, isAgain?: boolean, isJoined?: boolean) => Shape} */
export const placed = (text, n, isAgain = false, isJoined = false) => ({ op: 'text', x: CELL_WIDE * (n % COLUMNS) + AGAIN * Number(isAgain) + JOINED * Number(isJoined),
  y: FIRST_ROW + (Math.floor(n / COLUMNS) % ROWS), text });

/** @type {(shape: Shape, mark: number) => boolean} */
const isMarked = (shape, mark) => shape.op === 'text' && shape.y >= FIRST_ROW && shape.x % CELL_WIDE <= AGAIN + JOINED && (shape.x & mark) > 0;

/** Whether an ink was drawn in the place of others, as by a move.
 * @type {(shape: Shape) => boolean} */
export const isAgain = (shape) => isMarked(shape, AGAIN);

/** Whether an ink is of a group with the ink before it of its source.
 * @type {(shape: Shape) => boolean} */
export const isJoined = (shape) => isMarked(shape, JOINED);

/** An ink that is of a group with the one before it, or is not.
 * @type {(shape: Shape, is: boolean) => Shape} */
export const joined = (shape, is) => (shape.op === 'text' && isJoined(shape) !== is ? { ...shape, x: shape.x + (is ? JOINED : -JOINED) } : shape);
