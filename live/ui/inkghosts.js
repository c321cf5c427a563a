/** What is in hand, over the ink of the page: what is selected, touched, let go and not yet held, and begun. */
import { reachOf } from './eraser.js';
import { itemsOf } from './inkitems.js';
import { closeBoxOf } from './inkpaint.js';
import { CELL_WIDE } from './inksigns.js';
import { WORK, withinWork } from './inkwork.js';
import { frameAbout, gripsOf } from './resizing.js';

/** @typedef {import('./types.js').Shape} Shape */
/** @typedef {import('./types.js').Drawing} Drawing */
/** @typedef {import('./inkitems.js').Item} Item */
/** @typedef {import('./ink.js').Point} Point */

/** Points of the screen that a corner is wide; it makes what is selected larger or smaller. */
const GRIP = 9;

/** Hidden drawings that are shown where one is to be restored, and what they may cost in frames of the page. */
const MOST_HIDDEN = 1000, HIDDEN = 10;

export class InkGhosts {
  /** @param {import('./painter.js').Painter} painter */
  constructor(painter) {
    this.painter = painter;
  }

  /** A point of the screen, in units. */
  get point() {
    return CELL_WIDE / this.painter.parts.view.wide;
  }

  paint() {
    const { hand, session, pen } = this.painter.parts, { colours } = this.painter, { gesture } = hand, { me } = session.hello;
    if (hand.tool === 'restore') this.paintHidden(session.board.hidden.slice(-MOST_HIDDEN));
    if (hand.selection.size) this.paintChosen(hand.chosenItems());
    if (gesture?.touched && !this.painter.parts.style.look.cuts) this.paintItems([...gesture.touched.keys()], colours.bad);
    else if (gesture?.rubbed) this.paintRubbed(gesture.rubbed);
    this.paintShapes([...session.waiting].map(({ ghost }) => ghost), me);
    this.paintShapes(pen.ghosts(), me);
    this.paintShapes(hand.ghosts(), me);
    if (gesture?.tool === 'select' && !gesture.isMove) this.paintBox(gesture.points[0], gesture.points[gesture.points.length - 1]);
    if (hand.cursor.on) this.painter.cells.paintPointer();
    else if (hand.point && (gesture?.tool ?? hand.tool) === 'erase') this.paintRubber(hand.point);
  }

  /** Shapes that are not held yet, as they will be.
   * @param {Shape[]} shapes @param {number} source @param {string} [over] another colour */
  paintShapes(shapes, source, over) {
    if (shapes.length) this.paintItems(itemsOfShapes(shapes, source), over);
  }

  /** What others have begun, as far as a frame has room.
   * @param {Item[]} items those first that matter most */
  paintBegun(items) {
    this.paintItems(withinWork(items, WORK));
  }

  /** @param {Item[]} items @param {string} [over] */
  paintItems(items, over) {
    const { ink, parts: { view: { wide } } } = this.painter;
    this.painter.inUnits((brush) => items.forEach((item) => ink.paints.paint(brush, item, { wide, over })));
  }

  /** @param {Drawing[]} hidden */
  paintHidden(hidden) {
    const { brush, colours } = this.painter;
    brush.globalAlpha = 0.4;
    this.paintItems(withinWork(itemsOf(hidden), HIDDEN * WORK), colours.quiet);
    brush.globalAlpha = 1;
  }

  /** What is selected is coloured, with one frame about it; its corners make it larger or smaller, and the grip above turns it.
   * @param {Item[]} items */
  paintChosen(items) {
    const { colours } = this.painter, { point } = this, side = GRIP * point, frame = frameAbout(items);
    if (!frame) return;
    const { x0, y0, x1, y1 } = frame;
    this.painter.inUnits((brush) => {
      brush.strokeStyle = colours.accent;
      brush.fillStyle = colours.paper;
      brush.globalAlpha = 0.35;
      brush.lineWidth = point;
      for (const box of items.length > 1 ? items.map(closeBoxOf) : []) brush.strokeRect(box.x0, box.y0, box.x1 - box.x0, box.y1 - box.y0);
      brush.globalAlpha = 1;
      brush.lineWidth = 1.5 * point;
      brush.strokeRect(x0, y0, x1 - x0, y1 - y0);
      for (const { at: { x, y }, isTurn } of gripsOf(items, point)) {
        brush.beginPath();
        if (isTurn) brush.arc(x, y, side / 2, 0, 2 * Math.PI);
        else brush.rect(x - side / 2, y - side / 2, side, side);
        brush.fill();
        brush.stroke();
      }
    });
  }

  /** The rectangle of a selection.
   * @param {Point} a @param {Point} b */
  paintBox(a, b) {
    this.painter.inUnits((brush) => {
      brush.fillStyle = brush.strokeStyle = this.painter.colours.accent;
      brush.lineWidth = this.point;
      brush.globalAlpha = 0.08;
      brush.fillRect(a.x, a.y, b.x - a.x, b.y - a.y);
      brush.globalAlpha = 1;
      brush.strokeRect(a.x, a.y, b.x - a.x, b.y - a.y);
    });
  }

  /** Where the eraser went.
   * @param {import('./eraser.js').Rub[]} rubbed */
  paintRubbed(rubbed) {
    this.painter.inUnits((brush) => {
      brush.strokeStyle = this.painter.colours.paper;
      brush.lineCap = 'round';
      for (const { from, to, near } of rubbed) {
        brush.lineWidth = 2 * near;
        brush.beginPath();
        brush.moveTo(from.x, from.y);
        brush.lineTo(to.x + 0.5, to.y);
        brush.stroke();
      }
    });
  }

  /** What the eraser reaches.
   * @param {Point} at */
  paintRubber(at) {
    this.painter.inUnits((brush) => {
      brush.beginPath();
      brush.arc(at.x, at.y, reachOf(this.painter.parts.view), 0, 2 * Math.PI);
      brush.strokeStyle = this.painter.colours.quiet;
      brush.lineWidth = 1.2 * this.point;
      brush.stroke();
    });
  }
}

/** The items of shapes that have no number yet.
 * @type {(shapes: Shape[], source: number) => Item[]} */
export const itemsOfShapes = (shapes, source) => itemsOf(shapes.map((shape, i) => ({ ...shape, source, seq: i + 1, time: String(i + 1) })));
