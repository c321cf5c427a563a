/** Copy, cut and paste. What is copied is text: a line for each drawing, in the words that a host reads, so it can go anywhere. */
import { SIDE, spell } from './cells.js';
import { say, tell } from './dom.js';
import { CELL_HIGH, CELL_WIDE } from './inksigns.js';
import { placed, writeWords } from './inkwriting.js';
import { wording } from './language.js';
import { MOST_AT_ONCE, plainOf, writing } from './shapes.js';

/** @typedef {import('./types.js').Shape} Shape */
/** @typedef {import('./hand.js').Hand} Hand */

/** A number of a cell.
 * @type {(text: string) => boolean} */
const isPlace = (text) => /^(0|[1-9][0-9]{0,3})$/.test(text) && Number(text) < SIDE;

/** The shape of one line of words, or null where it is none.
 * @type {(line: string) => Shape | null} */
export function shapeOf(line) {
  const text = /^text (\S+) (\S+) "((?:[^"\\]|\\["\\]){1,128})"$/.exec(line);
  if (text) {
    const [, x, y, quoted] = text, letters = quoted.replace(/\\(.)/g, '$1');
    return isPlace(x) && isPlace(y) && letters.length <= 64 && /^[ -~]+$/.test(letters) ? { op: 'text', x: Number(x), y: Number(y), text: letters } : null;
  }
  const [op, ...words] = line.split(' '), glyph = words.pop() ?? '';
  if ((op !== 'line' && op !== 'frame') || words.length !== 4 || !words.every(isPlace) || !/^[!-~]$/.test(glyph)) return null;
  const [x0, y0, x1, y1] = words.map(Number);
  return { op, x0, y0, x1, y1, glyph };
}

/** The shapes of a text: drawings in words where each line is one; else the lines themselves, written from a cell on, or as ink with a look.
 * @type {(text: string, at: { x: number, y: number }, look?: import('./style.js').Look) => { shapes: Shape[], lost: string[] }} */
export function shapesOf(text, at, look) {
  const shapes = text.trim().split(/\r?\n/).map(shapeOf);
  if (shapes.every((shape) => shape !== null)) return { shapes: /** @type {Shape[]} */ (shapes), lost: [] };
  if (look) {
    const letters = text.replace(/\r\n?/g, '\n').replace(/\t/g, '    ').trimEnd(), corner = { x: at.x * CELL_WIDE, y: at.y * CELL_HIGH };
    return { shapes: writeWords({ colour: look.colour, width: look.size }, look.font, corner, letters).map((each) => placed(each, 0)), lost: [] };
  }
  const { plain, lost } = plainOf(text);
  return { shapes: writing(plain, at), lost };
}

/** Draws what a text holds at a cell, as far as it goes, and tells what could not be.
 * @param {Hand} hand @param {string} text @param {{ x: number, y: number }} at */
export function insert(hand, text, at) {
  const { painter, style } = hand.parts, { shapes, lost } = shapesOf(text, at, painter.isInk ? style.look : undefined);
  if (shapes.length > MOST_AT_ONCE) return tell(wording('tooMany', { most: MOST_AT_ONCE }));
  if (!shapes.length) return tell(wording('noText'));
  if (lost.length) tell(wording('drawnWithout', { letters: lost.slice(0, 8).join(' ') }));
  return hand.put(shapes, at);
}

/** @param {Hand} hand @param {() => { x: number, y: number }} place where to paste */
export function listenToClipboard(hand, place) {
  /** @param {ClipboardEvent} event */
  const isOurs = (event) => !/** @type {HTMLElement} */ (event.target).closest?.('input, textarea, select, dialog');
  /** @param {ClipboardEvent} event */
  const copy = (event) => {
    const chosen = hand.parts.painter.isInk ? hand.chosen.shapes() : hand.selected();
    if (!isOurs(event) || !chosen.length) return false;
    event.preventDefault();
    event.clipboardData?.setData('text/plain', `${chosen.map(spell).join('\n')}\n`);
    say(wording('manyCopied', { n: chosen.length }));
    return true;
  };
  document.addEventListener('copy', copy);
  document.addEventListener('cut', (event) => { if (copy(event)) hand.deleteSelected(); });
  document.addEventListener('paste', (event) => {
    const kinds = [...(event.clipboardData?.types ?? [])], text = event.clipboardData?.getData('text/plain') ?? '';
    if (!isOurs(event)) return;
    event.preventDefault();
    if (text.trim()) insert(hand, text, place());
    else if (kinds.includes('Files')) tell(wording('noPictures'));
  });
}
