/** The keyboard: a cursor on the sheet, and a key for each tool. */
import { SIDE, clamp } from './cells.js';
import { $, say } from './dom.js';
import { wording } from './language.js';

/** @typedef {import('./hand.js').Hand} Hand */

/** @type {Record<string, [number, number]>} */
const MOVES = { ArrowLeft: [-1, 0], ArrowRight: [1, 0], ArrowUp: [0, -1], ArrowDown: [0, 1], PageUp: [0, -20], PageDown: [0, 20] };

/** The keys that move what is selected by the mouse, or by a finger.
 * @type {Record<string, [number, number]>} */
const NUDGES = { ArrowLeft: [-1, 0], ArrowRight: [1, 0], ArrowUp: [0, -1], ArrowDown: [0, 1] };

/** Where the page keeps whether single letters are keys. */
const KEPT = 'wb-letters';

export class Keys {
  /**
   * @param {import('./view.js').View} view @param {Hand} hand @param {import('./pointing.js').Pointing} pointing
   * @param {{ keys: Record<string, () => void>, undo: () => void, redo: () => void, describe: (cell: { x: number, y: number }) => string }} acts
   */
  constructor(view, hand, pointing, acts) {
    this.view = view;
    this.hand = hand;
    this.pointing = pointing;
    this.acts = acts;
    /** Single letters are keys, while the sheet has the focus: who speaks to the machine can switch that off. */
    this.areLetters = localStorage.getItem(KEPT) !== 'off';
    document.addEventListener('keydown', (event) => this.down(event));
    document.addEventListener('keyup', (event) => event.key === ' ' && pointing.space(false));
    $('letters').checked = this.areLetters;
    $('letters').addEventListener('change', () => {
      this.areLetters = $('letters').checked;
      localStorage.setItem(KEPT, this.areLetters ? 'on' : 'off');
    });
  }

  /** @param {KeyboardEvent} event */
  down(event) {
    const at = /** @type {HTMLElement} */ (event.target), isOnSheet = at === this.view.sheet, isControl = event.ctrlKey || event.metaKey;
    const key = event.key.length === 1 ? event.key.toLowerCase() : event.key;
    if (at.closest('input, textarea, select, dialog') || event.altKey) return;
    if (isControl ? !this.controlKey(key, event.shiftKey) : !(isOnSheet && (this.sheetKey(event) || this.letterKey(key)))) return;
    this.hand.changed();
    event.preventDefault();
  }

  /** A key with Control; whether it meant something.
   * @param {string} key @param {boolean} isShifted */
  controlKey(key, isShifted) {
    if (key === 'y' || (key === 'z' && isShifted)) this.acts.redo();
    else if (key === 'z') this.acts.undo();
    else if (key === 'a') this.hand.selectAll();
    else if (key === 'd' && this.hand.parts.changing.isOn) this.hand.parts.changing.duplicate();
    else if (key === 'g' && this.hand.parts.changing.isOn) this.hand.parts.changing.group(!isShifted);
    else return false;
    return true;
  }

  /** A key that chooses something; whether it meant something. Single letters may be switched off.
   * @param {string} key */
  letterKey(key) {
    if (!this.acts.keys[key] || (key.length === 1 && !this.areLetters)) return false;
    this.acts.keys[key]();
    return true;
  }

  /** A key that moves and acts on the sheet; whether it meant something.
   * @param {KeyboardEvent} event */
  sheetKey(event) {
    const { changing } = this.hand.parts;
    if (event.key in NUDGES && changing.isOn && !this.hand.cursor.on) changing.nudge(...NUDGES[event.key], event.shiftKey);
    else if (event.key in MOVES) this.moveCursor(MOVES[event.key], event.shiftKey);
    else if (event.key === 'Enter') this.press(event.shiftKey);
    else if (event.key === 'Escape') this.escape();
    else if (event.key === 'Delete' || event.key === 'Backspace') this.hand.deleteSelected();
    else if (event.key === ' ') this.pointing.space(true);
    else return false;
    return true;
  }

  /** Drops what is begun, else what is selected; else nobody is followed any more. */
  escape() {
    const { gesture, selection, parts } = this.hand;
    if (!gesture && !selection.size) parts.follow.stop();
    if (!gesture) {
      parts.changing.settle();
      selection.clear();
      this.hand.chose();
    }
    this.hand.drop();
  }

  /** The first arrow shows the cell, the others move it.
   * @param {[number, number]} by @param {boolean} isFar */
  moveCursor([dx, dy], isFar) {
    const { cursor } = this.hand, by = cursor.on ? (isFar ? 10 : 1) : 0;
    Object.assign(cursor, { on: true, x: clamp(cursor.x + dx * by, 0, SIDE - 1), y: clamp(cursor.y + dy * by, 0, SIDE - 1) });
    [this.hand.pointer, this.hand.point] = [null, null];
    if (this.view.reveal(cursor)) this.hand.parts.owner.take();
    this.hand.move({ x: cursor.x, y: cursor.y });
    say(this.acts.describe(cursor));
  }

  /** Enter begins, and then lets go; what needs no second end is done at once.
   * @param {boolean} isMore whether it is added to a selection */
  press(isMore) {
    const { hand } = this;
    hand.cursor.on = true;
    if (hand.gesture) return hand.finish();
    hand.begin({ x: hand.cursor.x, y: hand.cursor.y }, undefined, { isShifted: isMore });
    return hand.toolOf(hand.tool).isShort ? hand.finish() : say(wording('toolBegun', { tool: wording(/** @type {import('./language.js').Key} */ (hand.tool)) }));
  }
}
