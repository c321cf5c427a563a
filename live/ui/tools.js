/** The tools: what each draws, deletes or restores from where a gesture began to where it ends. */
import { boxOf, kept, nameOf, shifted } from './cells.js';
import { arrow, between, filled, stroke } from './shapes.js';

/** @typedef {import('./cells.js').Cell} Cell */
/** @typedef {import('./types.js').Shape} Shape */
/** @typedef {import('./types.js').Drawing} Drawing */
/** @typedef {import('./hand.js').Hand} Hand */
/** What is begun: its two ends and the way between them, in cells, and the same way by points; how long it took; whether Shift is held;
 * for a selection whether it is moved, and by which corner it is made larger or smaller; for the eraser what it has touched, and where it went.
 * @typedef {{ tool: string, from: Cell, to: Cell, path: Cell[], points: import('./ink.js').Point[], began: number, ended?: number, isMove: boolean,
 *   isShifted: boolean, grip?: import('./resizing.js').Grip, touched?: import('./eraser.js').Touched,
 *   rubbed?: import('./eraser.js').Rub[] }} Gesture */

/** With `isShort` a tool needs no second end. `shapes` are those that are drawn when it is let go, and `doomed` those that are deleted;
 * `finish` does both unless a tool has its own. `move` is given the points of the way before the gesture has them.
 * @typedef {{ isShort?: boolean, shapes?: (gesture: Gesture, hand: Hand) => Shape[], doomed?: (gesture: Gesture, hand: Hand) => Drawing[],
 *   begin?: (gesture: Gesture, hand: Hand, how: import('./hand.js').How) => void, finish?: (gesture: Gesture, hand: Hand) => void,
 *   move?: (gesture: Gesture, hand: Hand, points: import('./ink.js').Point[]) => void, drop?: (hand: Hand) => void }} Tool */

/** @type {(op: 'line' | 'frame') => (gesture: Gesture, hand: Hand) => Shape[]} */
const simple = (op) => ({ from, to }, { glyph }) => [{ op, x0: from.x, y0: from.y, x1: to.x, y1: to.y, glyph }];

/** The drawings on top along a way, each once.
 * @type {(gesture: Gesture, hand: Hand) => Drawing[]} */
function touched({ path }, { layout }) {
  const cells = path.flatMap((cell, i) => between(path[Math.max(0, i - 1)], cell));
  return [...new Set(cells.map((cell) => layout.drawingAt(cell)))].filter((drawing) => drawing !== undefined).map((drawing) => /** @type {Drawing} */ (drawing));
}

/** The drawings that lie in a rectangle as a whole.
 * @type {(drawops: Drawing[], from: Cell, to: Cell) => Drawing[]} */
export function inside(drawops, from, to) {
  const [left, right] = [Math.min(from.x, to.x), Math.max(from.x, to.x)], [top, bottom] = [Math.min(from.y, to.y), Math.max(from.y, to.y)];
  return drawops.filter((drawing) => {
    const { x0, y0, x1, y1 } = boxOf(drawing);
    return x0 >= left && x1 <= right && y0 >= top && y1 <= bottom;
  });
}

/** The selected drawings where a move would put them.
 * @type {(gesture: Gesture, hand: Hand) => Shape[]} */
function moved({ from, to, isMove }, hand) {
  const shapes = hand.selected();
  if (!isMove || !shapes.length) return [];
  const [dx, dy] = kept(shapes, to.x - from.x, to.y - from.y);
  return dx || dy ? shapes.map((shape) => shifted(shape, dx, dy)) : [];
}

/** Takes what is under the hand, with what was drawn in the same step; or begins a rectangle.
 * @type {(gesture: Gesture, hand: Hand, how: { isShifted?: boolean }) => void} */
function take(gesture, hand, { isShifted }) {
  const drawing = hand.layout.drawingAt(gesture.from), isTaken = drawing && hand.selection.has(nameOf(drawing));
  if (!isTaken && !isShifted) hand.selection.clear();
  if (drawing && !isTaken) hand.steps.groupOf(drawing).forEach((name) => hand.selection.add(name));
  else if (drawing && isShifted) hand.steps.groupOf(drawing).forEach((name) => hand.selection.delete(name));
  gesture.isMove = Boolean(drawing);
}

/** Draws the selection where it was moved to, and deletes it where it was; or selects what lies in the rectangle.
 * @type {(gesture: Gesture, hand: Hand) => void} */
function endTaking(gesture, hand) {
  const shapes = moved(gesture, hand), old = hand.selected();
  if (!gesture.isMove) inside(hand.session.board.drawops, gesture.from, gesture.to).forEach((drawing) => hand.selection.add(nameOf(drawing)));
  if (shapes.length) hand.replace(old, shapes);
  else hand.tellSelection();
}

/** @type {Record<string, Tool>} */
export const TOOLS = {
  select: { begin: take, shapes: moved, finish: endTaking },
  pen: { shapes: ({ path, began, ended = performance.now() }, { glyph }) => stroke(path, ended - began, glyph) },
  line: { shapes: simple('line') },
  arrow: { shapes: ({ from, to }, { glyph }) => arrow(from, to, glyph) },
  frame: { shapes: simple('frame') },
  block: { shapes: ({ from, to }, { glyph }) => filled(from, to, glyph) },
  text: { isShort: true, finish: ({ to }, hand) => hand.parts.typing.begin(to) },
  erase: { doomed: touched },
  restore: { isShort: true, finish: ({ to }, hand) => hand.restoreAt(to) },
};
