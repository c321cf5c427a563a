/** What the user has in hand: the tool, the glyph, what is begun, what is selected, and where the pointer is. */
import { boxAbout, kept, orderOf, shifted } from './cells.js';
import { Chosen } from './chosen.js';
import { $, say, tell } from './dom.js';
import { inkOf } from './ink.js';
import { CELL_HIGH, CELL_WIDE } from './inksigns.js';
import { INK_TOOLS, carriedAll } from './inktools.js';
import { isJoined, placed } from './inkwriting.js';
import { wording } from './language.js';
import { MOST_AT_ONCE } from './shapes.js';
import { TOOLS } from './tools.js';

/** @typedef {import('./cells.js').Cell} Cell */
/** @typedef {import('./ink.js').Point} Point */
/** @typedef {import('./types.js').Shape} Shape */
/** @typedef {import('./types.js').Drawing} Drawing */
/** @typedef {import('./tools.js').Gesture} Gesture */
/** @typedef {import('./inkitems.js').Item} Item */

/** The middle of a cell, in units.
 * @type {(cell: Cell) => Point} */
export const middleOf = ({ x, y }) => ({ x: (x + 0.5) * CELL_WIDE, y: (y + 0.5) * CELL_HIGH });

/** How a gesture begins or goes on: with Shift, by a pen that tells its pressure, and with another tool than the one that is chosen.
 * @typedef {{ isShifted?: boolean, isPressed?: boolean, tool?: string }} How */

export class Hand {
  /** @param {import('./whiteboard.js').Whiteboard} board */
  constructor(board) {
    this.parts = board;
    this.session = board.session;
    this.layout = board.layout;
    this.steps = board.steps;
    this.tool = 'pen';
    this.glyph = '*';
    /** @type {Gesture | null} */
    this.gesture = null;
    /** The cell under the mouse, and the point there.
     * @type {Cell | null} */
    this.pointer = null;
    /** @type {Point | null} */
    this.point = null;
    this.cursor = { x: 2, y: 2, on: false };
    /** The names of the drawings that are selected.
     * @type {Set<string>} */
    this.selection = new Set();
    this.chosen = new Chosen(this);
    /** The number of the place that an ink was given last. */
    this.place = 0;
    this.session.on('board', (_, { isTurned }) => isTurned && this.selection.clear());
  }

  /** Something of it has changed. */
  changed() {
    this.parts.change();
  }

  /** What a tool does, on ink or on cells.
   * @param {string} name */
  toolOf(name) {
    return (this.parts.painter.isInk && INK_TOOLS[name]) || TOOLS[name] || TOOLS.select;
  }

  /** The cell that is meant, by whatever it is pointed at.
   * @returns {Cell | null} */
  at() {
    return this.gesture?.to ?? this.pointer ?? (this.cursor.on ? this.cursor : null);
  }

  /** An ink as a drawing, at a place of the page that no other has, as far as there are.
   * @param {string} text @param {boolean} [isAgain] whether it stands for others that are deleted then @param {boolean} [isJoined] @returns {Shape} */
  placed(text, isAgain = false, isJoined = false) {
    this.place = Math.max(this.place, this.session.shown.size + this.session.erased.size) + 1;
    return placed(text, this.place, isAgain, isJoined);
  }

  /** The shapes that would be drawn now.
   * @returns {Shape[]} */
  ghosts() {
    return (this.gesture && this.toolOf(this.gesture.tool).shapes?.(this.gesture, this)) ?? this.parts.changing.ghosts();
  }

  /** The drawings that would be deleted now.
   * @returns {Drawing[]} */
  doomed() {
    const at = this.at(), gesture = this.gesture ?? (at && this.gestureAt(at));
    return (gesture && this.toolOf(gesture.tool).doomed?.(gesture, this)) ?? [];
  }

  /** The rectangle of a selection that is begun. */
  box() {
    const { gesture } = this;
    return gesture?.tool === 'select' && !gesture.isMove ? gesture : null;
  }

  /** The drawings that are selected, in the order of painting.
   * @returns {Drawing[]} */
  selected() {
    const found = [...this.selection].map((name) => this.session.shown.get(name)).filter((drawing) => drawing !== undefined);
    return /** @type {Drawing[]} */ (found).sort(orderOf);
  }

  /** What is selected, as items: of those of which some strokes are selected these alone.
   * @returns {Item[]} */
  chosenItems() {
    return this.chosen.items();
  }

  /** @param {string} tool */
  choose(tool) {
    this.parts.pen.flush();
    this.parts.changing.settle();
    this.tool = tool;
    this.gesture = null;
    this.selection.clear();
    for (const button of document.querySelectorAll('[data-tool]')) {
      button.setAttribute('aria-pressed', String(/** @type {HTMLElement} */ (button).dataset.tool === tool));
    }
    document.body.dataset.hand = tool;
    this.parts.style.show();
    this.parts.changing.show();
    say(wording('toolChosen', { tool: wording(/** @type {import('./language.js').Key} */ (tool)) }));
    this.changed();
  }

  /** @param {string} glyph */
  setGlyph(glyph) {
    this.glyph = $('glyph').textContent = glyph;
  }

  /** @param {Cell} cell @param {Point} [point] @returns {Gesture} */
  gestureAt(cell, point = middleOf(cell)) {
    return { tool: this.tool, from: cell, to: cell, path: [cell], points: [point], began: performance.now(), isMove: false, isShifted: false };
  }

  /** @param {Cell} cell @param {Point} [point] @param {How} [how] with Shift it is added to a selection */
  begin(cell, point, how = {}) {
    this.parts.sight.stay();
    this.parts.changing.settle();
    this.gesture = Object.assign(this.gestureAt(cell, point), { isShifted: Boolean(how.isShifted), tool: how.tool ?? this.tool });
    this.toolOf(this.gesture.tool).begin?.(this.gesture, this, how);
    this.changed();
  }

  /** @param {Cell | null | undefined} cell @param {Point[]} [points] on the way to it @param {How} [how] */
  move(cell, points = cell ? [middleOf(cell)] : [], how = {}) {
    const { gesture } = this, last = gesture?.path[gesture.path.length - 1];
    if (gesture && cell) {
      gesture.isShifted = Boolean(how.isShifted);
      this.toolOf(gesture.tool).move?.(gesture, this, points);
      gesture.points.push(...points);
      gesture.to = cell;
      if (last?.x !== cell.x || last?.y !== cell.y) gesture.path.push(cell);
    }
    this.changed();
  }

  drop() {
    if (this.gesture) this.toolOf(this.gesture.tool).drop?.(this);
    this.gesture = null;
    this.changed();
  }

  /** Lets go of what is begun. */
  finish() {
    const { gesture } = this;
    if (!gesture) return;
    gesture.ended = performance.now();
    const tool = this.toolOf(gesture.tool), shapes = this.ghosts(), doomed = this.doomed();
    this.gesture = null;
    if (tool.finish) tool.finish(gesture, this);
    else this.change(shapes, doomed);
    this.changed();
  }

  /** One step that draws and then deletes, so that nothing is lost on the way.
   * @param {Shape[]} shapes @param {Drawing[]} doomed @param {{ page?: string, isAgain?: boolean }} [how] on which page, if not on the one in view;
   *   and whether these are drawn in the place of those: nothing is erased */
  change(shapes, doomed, how = {}) {
    const { page, isAgain = false } = how;
    if (shapes.length + doomed.length === 0) return null;
    if (shapes.length > MOST_AT_ONCE) return tell(wording('tooMany', { most: MOST_AT_ONCE })), null;
    const step = this.steps.begin(page);
    shapes.forEach((shape, i) => step.draw(shape.op === 'text' && inkOf(shape) ? this.placed(shape.text, isAgain, i > 0 && isJoined(shape)) : shape));
    doomed.forEach((drawing) => step.hide(drawing));
    return step;
  }

  /** Draws shapes in the place of drawings, and what is left of these, and selects the shapes.
   * @param {Drawing[]} old @param {Shape[]} shapes @param {Shape[]} [rest] */
  async replace(old, shapes, rest = []) {
    const step = this.change([...rest, ...shapes], old, { isAgain: old.length > 0 });
    this.selection.clear();
    if (step && this.tool === 'select') (await step.names()).slice(rest.length).forEach((name) => this.selection.add(name));
    this.chose();
  }

  /** @param {Cell} cell */
  restoreAt(cell) {
    const hidden = this.layout.hiddenAt(cell);
    if (hidden) this.steps.begin().restore(hidden);
  }

  /** Deletes what is selected. */
  deleteSelected() {
    const { isInk } = this.parts.painter, doomed = isInk ? this.chosen.drawings() : this.selected(), rest = isInk ? this.chosen.rest() : [];
    this.selection.clear();
    this.change(rest, doomed);
    this.chose();
  }

  selectAll() {
    this.choose('select');
    this.chosen.strokes.clear();
    [...this.session.shown.keys()].forEach((name) => this.selection.add(name));
    this.tellSelection();
  }

  tellSelection() {
    const count = this.parts.painter.isInk ? this.chosenItems().length : this.selected().length;
    say(wording('selected', { n: count }));
    this.chose();
  }

  /** Something else is selected. */
  chose() {
    this.parts.style.show();
    this.parts.changing.show();
    this.changed();
  }

  /** Draws shapes about a cell, their corner there, as one step that is then selected.
   * @param {Shape[]} shapes @param {Cell} cell */
  put(shapes, cell) {
    if (!shapes.length) return undefined;
    this.choose('select');
    if (shapes.some((shape) => inkOf(shape))) return this.replace([], carriedAll(shapes, middleOf(cell)));
    const { x0, y0 } = boxAbout(shapes), [dx, dy] = kept(shapes, cell.x - x0, cell.y - y0);
    return this.replace([], shapes.map((shape) => shifted(shape, dx, dy)));
  }
}
