/** The tools of a page that is shown as ink. */
import { kept, shifted } from './cells.js';
import { partsInside } from './chosen.js';
import { cutOf, reachOf, restOf, rub } from './eraser.js';
import { inkOf } from './ink.js';
import { itemAt, partsAt } from './inkfind.js';
import { itemsOf } from './inkitems.js';
import { boxAboutAll } from './inkpaint.js';
import { CELL_HIGH, CELL_WIDE, PAGE_HIGH, PAGE_WIDE } from './inksigns.js';
import { isJoined, keptInks, movedInk, placed, writeShape } from './inkwriting.js';
import { gripAt, reshaped, stretchOf, stretched } from './resizing.js';

/** @typedef {import('./types.js').Shape} Shape */
/** @typedef {import('./types.js').Drawing} Drawing */
/** @typedef {import('./ink.js').Point} Point */
/** @typedef {import('./hand.js').Hand} Hand */
/** @typedef {import('./tools.js').Gesture} Gesture */
/** @typedef {import('./tools.js').Tool} Tool */

/** A hand that moves less than this many units has moved nothing. */
const STILL = 12;

/** A note that is only clicked, in units. */
const NOTE = { wide: 20 * CELL_WIDE, high: 6 * CELL_HIGH };

/** With Shift a line has one of this many directions: every 15 degrees. */
const WAYS = 24;

/** The two ends of a gesture; with Shift as wide as high, or in steps of 15 degrees.
 * @type {(gesture: Gesture) => [Point, Point]} */
function ends({ points, isShifted, tool }) {
  const [from] = points, to = points[points.length - 1], [dx, dy] = [to.x - from.x, to.y - from.y];
  if (!isShifted) return [from, to];
  if (tool === 'line' || tool === 'arrow') {
    const angle = (Math.round((Math.atan2(dy, dx) * WAYS) / 2 / Math.PI) * 2 * Math.PI) / WAYS, far = Math.hypot(dx, dy);
    return [from, { x: from.x + far * Math.cos(angle), y: from.y + far * Math.sin(angle) }];
  }
  const side = Math.max(Math.abs(dx), Math.abs(dy));
  return [from, { x: from.x + Math.sign(dx) * side, y: from.y + Math.sign(dy) * side }];
}

/** The upper left and the lower right corner of a gesture.
 * @type {(gesture: Gesture) => [Point, Point]} */
function corners(gesture) {
  const [a, b] = ends(gesture);
  return [{ x: Math.min(a.x, b.x), y: Math.min(a.y, b.y) }, { x: Math.max(a.x, b.x), y: Math.max(a.y, b.y) }];
}

/** Texts as drawings: they get a place when they are sent.
 * @type {(texts: string[]) => Shape[]} */
const drawn = (texts) => texts.map((text) => placed(text, 0));

/** @type {(heads: number) => Tool} */
const liner = (heads) => ({
  shapes: (gesture, hand) => {
    const { colour, width, isDashed, hasTwo } = hand.parts.style.look;
    return drawn(writeShape('l', { colour, width }, (heads && hasTwo ? 3 : heads) + (isDashed ? 4 : 0), ends(gesture)));
  },
});

/** @type {(kind: string) => Tool} */
const closer = (kind) => ({
  shapes: (gesture, hand) => {
    const { colour, width, isDashed, fill } = hand.parts.style.look;
    return drawn(writeShape(kind, { colour, width }, fill + (isDashed ? 4 : 0), corners(gesture)));
  },
});

/** The pen, or the highlighter.
 * @type {(isBroad: boolean) => Tool} */
const writer = (isBroad) => ({
  begin: ({ points: [at] }, hand, { isPressed }) => {
    const { colour, width, bright, broad, isEven } = hand.parts.style.look, isLively = isPressed || (!isEven && 'time' in at);
    hand.parts.pen.begin(isBroad ? { kind: 'h', colour: bright, width: broad } : { kind: isLively ? 'v' : 's', colour, width }, at);
  },
  move: (_, hand, points) => hand.parts.pen.move(points),
  finish: (_, hand) => hand.parts.pen.end(),
  drop: (hand) => hand.parts.pen.cancel(),
});

/** A shape elsewhere, some units on: ink by units, another by cells.
 * @type {(shape: Shape, dx: number, dy: number) => Shape} */
function carried(shape, dx, dy) {
  const text = shape.op === 'text' && inkOf(shape) ? movedInk(shape.text, dx, dy) : null;
  if (text) return placed(text, 0, false, isJoined(shape));
  const [columns, rows] = kept([shape], Math.round(dx / CELL_WIDE), Math.round(dy / CELL_HIGH));
  return shifted(shape, columns, rows);
}

/** Shapes so far on as the page goes.
 * @type {(shapes: Shape[], dx: number, dy: number) => Shape[]} */
export function carriedBy(shapes, dx, dy) {
  const inks = shapes.map(inkOf).filter((ink) => ink !== null), [across, down] = keptInks(/** @type {import('./ink.js').Ink[]} */ (inks), dx, dy);
  return shapes.map((shape) => carried(shape, across, down));
}

/** Shapes whose corner is put at a point.
 * @type {(shapes: Shape[], at: Point) => Shape[]} */
export function carriedAll(shapes, at) {
  const box = boxAboutAll(itemsOf(shapes.map((shape, i) => ({ ...shape, source: 0, seq: i + 1, time: String(i + 1) }))));
  return box ? carriedBy(shapes, at.x - box.x0, at.y - box.y0) : [];
}

/** What is selected, where a move would put it, or as a corner makes it.
 * @type {(gesture: Gesture, hand: Hand) => Shape[]} */
function movedThere({ points, isMove, isShifted, grip }, hand) {
  const [from] = points, to = points[points.length - 1], [dx, dy] = [to.x - from.x, to.y - from.y], items = grip ? hand.chosenItems() : [];
  if (!isMove || Math.hypot(dx, dy) < STILL) return [];
  if (grip?.end !== undefined) return reshaped(items[0], grip.end, { x: dx, y: dy });
  return grip ? stretched(items, stretchOf(grip, items, { x: dx, y: dy }, isShifted)) : carriedBy(hand.chosen.shapes(), dx, dy);
}

/** Takes a corner of what is selected, or the item under the hand, or begins a rectangle.
 * @type {(gesture: Gesture, hand: Hand, how: { isShifted?: boolean }) => void} */
function take(gesture, hand, { isShifted }) {
  const { ink, view } = hand.parts, [at] = gesture.points, grip = gripAt(hand.chosenItems(), at, CELL_WIDE / view.wide);
  if (grip) {
    Object.assign(gesture, { grip, isMove: true });
    return;
  }
  const item = ink.grid.itemAt(at, reachOf(view)), isTaken = item !== undefined && hand.chosen.has(item, partsAt(item, at, reachOf(view)));
  if (!isTaken && !isShifted) hand.selection.clear();
  if (item && isTaken && isShifted) hand.chosen.remove(item);
  else if (item && !isTaken) hand.chosen.add(item);
  gesture.isMove = Boolean(item);
}

/** Draws the selection where it was moved to, and deletes it where it was; or selects what lies in the rectangle.
 * @type {(gesture: Gesture, hand: Hand) => void} */
function endTaking(gesture, hand) {
  const shapes = movedThere(gesture, hand), [from] = gesture.points, to = gesture.points[gesture.points.length - 1];
  for (const item of gesture.isMove ? [] : hand.parts.ink.items) {
    const parts = partsInside(item, from, to);
    if (parts.size) hand.chosen.add(item, parts);
  }
  if (shapes.length) hand.replace(hand.chosen.drawings(), shapes, hand.chosen.rest());
  else hand.tellSelection();
}

/** Begins a note between the two ends, or of its usual size.
 * @type {(gesture: Gesture, hand: Hand) => void} */
function beginNote(gesture, hand) {
  const [from, to] = corners(gesture), isClick = Math.hypot(from.x - to.x, from.y - to.y) < 2 * CELL_WIDE;
  hand.parts.typing.beginNote(from, isClick ? { x: Math.min(from.x + NOTE.wide, PAGE_WIDE - 1), y: Math.min(from.y + NOTE.high, PAGE_HIGH - 1) } : to);
}

/** Shows again what was hidden under the hand.
 * @type {(gesture: Gesture, hand: Hand) => void} */
function restore({ points }, hand) {
  const found = itemAt(itemsOf(hand.session.board.hidden), points[points.length - 1], reachOf(hand.parts.view)), step = found && hand.steps.begin();
  found?.drawings.forEach((drawing) => step?.restore(drawing));
}

/** @type {Record<string, Tool>} */
export const INK_TOOLS = {
  select: { begin: take, shapes: movedThere, finish: endTaking },
  hand: { finish: () => {} },
  pen: writer(false),
  marker: writer(true),
  line: liner(0),
  arrow: liner(1),
  frame: closer('r'),
  ellipse: closer('o'),
  diamond: closer('d'),
  note: { shapes: (gesture, hand) => drawn(writeShape('n', { colour: hand.parts.style.look.bright, width: 2 }, 1, corners(gesture))), finish: beginNote },
  text: { isShort: true, finish: ({ points }, hand) => hand.parts.typing.beginLetters(points[points.length - 1]) },
  erase: {
    begin: (gesture, hand) => rub(gesture, hand, gesture.points[0], gesture.points[0]),
    move: (gesture, hand, points) => points.reduce((from, to) => (rub(gesture, hand, from, to), to), gesture.points[gesture.points.length - 1]),
    finish: ({ touched, rubbed = [] }, hand) => {
      const found = [...(touched ?? [])], { cuts } = hand.parts.style.look;
      hand.change(found.flatMap(([item, parts]) => (cuts ? cutOf(item, rubbed, hand) : restOf(item, parts, hand))), found.flatMap(([item]) => item.drawings));
    },
  },
  restore: { isShort: true, finish: restore },
};
