/** What is selected is changed: its look, its place by keys, and where it lies among the others; it is copied and deleted. A bar over it offers that. */
import { spell } from './cells.js';
import { $, say, tell } from './dom.js';
import { colourFor } from './eraser.js';
import { byPainting } from './inkitems.js';
import { KINDS } from './inkkinds.js';
import { boxOf } from './inkpaint.js';
import { carriedBy } from './inktools.js';
import { joined, restyled } from './inkwriting.js';
import { wording } from './language.js';
import { frameAbout } from './resizing.js';

/** @typedef {import('./types.js').Shape} Shape */
/** @typedef {import('./inkitems.js').Item} Item */
/** @typedef {import('./style.js').Look} Look */

/** Milliseconds after which a nudge is drawn: until then more of them are one; and the points of the screen that it is, and with Shift. */
const RESTS = 600, NUDGE = 1, FAR = 10;

/** Points of the screen from what is selected to its copy, and to the bar. */
const BESIDE = 20, ABOVE = 44;

/** So many drawings are drawn anew at most, for another to lie behind them. */
const MOST_ANEW = 200;

export class Changing {
  /** @param {import('./whiteboard.js').Whiteboard} board */
  constructor(board) {
    this.board = board;
    /** How far keys have moved what is selected, in units, until that is drawn. */
    this.by = { x: 0, y: 0 };
    this.timer = 0;
    /** @type {Record<string, () => void>} */
    const acts = { 'chosen-delete': () => board.hand.deleteSelected(), 'chosen-twice': () => this.duplicate(), 'chosen-copy': () => this.copy(), 'chosen-front': () => this.toFront(), 'chosen-back': () => this.toBack(),
      'chosen-group': () => this.group(true), 'chosen-ungroup': () => this.group(false) };
    for (const [id, act] of Object.entries(acts)) $(id).addEventListener('click', () => { act(); board.focusSheet(); });
    board.view.onMove(() => this.show());
  }

  /** Whether ink is selected that can be changed. */
  get isOn() {
    const { hand, painter } = this.board;
    return painter.isInk && hand.tool === 'select' && hand.selection.size > 0 && !hand.gesture;
  }

  /** Puts the bar over what is selected, as far as there is room. */
  show() {
    const { hand, view } = this.board, bar = $('chosen'), frame = this.isOn ? frameAbout(hand.chosenItems()) : null;
    bar.hidden = !frame;
    if (!frame) return;
    [$('chosen-ungroup').hidden, $('chosen-group').hidden] = this.board.hand.chosen.grouped().map((is, i) => (i ? is : !is));
    const scale = view.wide / 64, [left, top] = view.corner(), { width, height } = bar.getBoundingClientRect(), room = { top: 128, bottom: view.height - 70 - height };
    const middle = ((frame.x0 + frame.x1) / 2) * scale - left, above = frame.y0 * scale - top - ABOVE - height, below = frame.y1 * scale - top + BESIDE;
    const y = above >= room.top ? above : below <= room.bottom ? below : room.top;
    Object.assign(bar.style, { left: `${Math.min(Math.max(8, middle - width / 2), view.width - width - 8)}px`, top: `${Math.min(Math.max(room.top, y), Math.max(room.top, room.bottom))}px` });
  }

  /** What keys have moved, until it is drawn.
   * @returns {Shape[]} */
  ghosts() {
    return this.timer ? carriedBy(this.board.hand.chosen.shapes(), this.by.x, this.by.y) : [];
  }

  /** Draws what is selected anew, as it becomes; what becomes no other stays.
   * @param {(shape: Shape) => Shape} change */
  change(change) {
    const { hand } = this.board, pieces = hand.chosen.pieces().map((piece) => ({ piece, shapes: hand.chosen.shapesOf(piece) }));
    const all = pieces.map(({ piece, shapes }) => ({ piece, anew: shapes.map(change), shapes })), others = all.filter(({ shapes, anew }) => anew.some((shape, i) => spell(shape) !== spell(shapes[i])));
    if (!others.length) return tell(wording('notChanged'));
    // a group is drawn anew as a whole
    const groups = new Set(others.flatMap(({ piece }) => this.board.ink.kept.groupOf(piece.item))), changed = all.filter(({ piece }) => groups.has(piece.item));
    const stays = pieces.filter(({ piece }) => !changed.some((each) => each.piece === piece)).flatMap(({ piece }) => piece.item), rest = hand.chosen.rest(changed.map(({ piece }) => piece));
    const done = hand.replace(changed.flatMap(({ piece }) => piece.item.drawings), changed.flatMap(({ anew }) => anew), rest);
    return done.then(() => { stays.forEach((item) => hand.chosen.add(item)); hand.chose(); });
  }

  /** Another colour, width or font for all that is selected and has one.
   * @param {Partial<Look>} look */
  restyle(look) {
    this.change((shape) => (shape.op === 'text' ? { ...shape, text: restyled(shape.text, look) ?? shape.text } : shape));
  }

  /** Moves what is selected a little. Several such moves soon after one another are drawn as one.
   * @param {number} across @param {number} down @param {boolean} isFar */
  nudge(across, down, isFar) {
    const point = (64 / this.board.view.wide) * (isFar ? FAR : NUDGE);
    this.by = { x: this.by.x + across * point, y: this.by.y + down * point };
    clearTimeout(this.timer);
    this.timer = /** @type {any} */ (setTimeout(() => this.settle(), RESTS));
    this.board.painter.soon();
  }

  /** Draws what keys have moved. */
  settle() {
    const { hand } = this.board, { by } = this, shapes = this.ghosts();
    if (!this.drop()) return;
    if (Math.hypot(by.x, by.y) >= 1 && shapes.length) hand.replace(hand.chosen.drawings(), shapes, hand.chosen.rest());
  }

  /** Takes back what keys have moved and is not drawn; whether there was something. */
  drop() {
    const is = this.timer > 0;
    clearTimeout(this.timer);
    [this.timer, this.by] = [0, { x: 0, y: 0 }];
    if (is) this.board.painter.soon();
    return is;
  }

  /** Draws what is selected once more, beside it. */
  duplicate() {
    const { hand, view } = this.board, by = (64 / view.wide) * BESIDE, shapes = carriedBy(hand.chosen.shapes(), by, by);
    if (shapes.length) hand.replace([], shapes);
  }

  /** Draws what is selected anew, so that it lies over all else. */
  toFront() {
    const { hand } = this.board, shapes = hand.chosen.shapes();
    if (shapes.length) hand.replace(hand.chosen.drawings(), shapes, hand.chosen.rest());
    say(wording('toFront'));
  }

  /** Draws anew what lies under what is selected, and what lies over that, so that it all lies over it: painting goes by time, and nothing is drawn in the past. */
  toBack() {
    const { hand, ink, leafing } = this.board, chosen = new Set(hand.chosen.pieces().map(({ item }) => item)), /** @type {Set<Item>} */ anew = new Set();
    /** @type {(item: Item, isMeant: (other: Item) => boolean) => void} */
    const take = (item, isMeant) => [...ink.itemsIn(boxOf(item))].filter((other) => !chosen.has(other) && isMeant(other)).forEach((other) => ink.kept.groupOf(other).forEach((each) => anew.add(each)));
    for (const item of chosen) take(item, (other) => byPainting(other, item) < 0);
    // a set is gone through to its end, though it grows
    for (const item of anew) take(item, (other) => byPainting(other, item) > 0);
    const drawings = ink.kept.inGroups([...anew].sort(byPainting)).flatMap(({ item, drawings: all }) => all.map((drawing) => leafing.copied(drawing, colourFor(item, hand))));
    if (drawings.length > MOST_ANEW) return tell(wording('tooManyAnew', { most: MOST_ANEW }));
    if (drawings.length) hand.change(drawings, [...anew].flatMap((item) => item.drawings), { isAgain: true });
    return say(wording('toBack'));
  }

  /** Has what is selected be chosen and changed as one from now on, or no more. Cells belong to no group.
   * @param {boolean} is */
  group(is) {
    const { hand } = this.board, pieces = hand.chosen.pieces().filter(({ item }) => !KINDS[item.kind].isPlain), rest = hand.chosen.rest(pieces);
    if (pieces.length < 2) return tell(wording('oneAlone'));
    hand.replace(pieces.flatMap(({ item }) => item.drawings), pieces.flatMap((piece, n) => hand.chosen.shapesOf(piece).map((shape, i) => joined(shape, is && n > 0 && !i))), rest);
    return say(wording(is ? 'grouped' : 'ungrouped'));
  }

  /** Copies what is selected, as a key does. */
  copy() {
    const words = this.board.hand.chosen.shapes().map(spell).join('\n');
    navigator.clipboard?.writeText(`${words}\n`).then(() => say(wording('copied')), () => tell(wording('copyByKeys')));
    if (!navigator.clipboard) tell(wording('copyByKeys'));
  }
}
