/** Letters of inks on a canvas: their fonts, their lines, and how wide they are. */
import { KINDS, isClosed } from './inkkinds.js';
import { FREE, IN_SHAPES, LEADING, OF_CELLS } from './inkmeasures.js';
import { CELL_HIGH, CELL_WIDE, SIZES } from './inksigns.js';

/** @typedef {import('./ink.js').Point} Point */
/** @typedef {import('./inkitems.js').Item} Item */

export const SANS = 'system-ui, "Segoe UI", Roboto, "Helvetica Neue", "Noto Sans", "DejaVu Sans", sans-serif';
const SERIF = '"STIX Two Text", Cambria, Georgia, "Liberation Serif", "DejaVu Serif", serif';
export const MONO = 'ui-monospace, "Cascadia Mono", "SF Mono", Menlo, Consolas, "DejaVu Sans Mono", monospace';

/** Of which font letters are: 0 plain, 1 of one width, 2 a formula.
 * @type {(font: number, size: number) => string} */
export const fontOf = (font, size) => (font === 2 ? `italic ${size}px ${SERIF}` : `${size}px ${font === 1 ? MONO : SANS}`);

/** @type {CanvasRenderingContext2D | null} */
let ruler = null;

/** How wide a line of letters is, in the units of its size.
 * @type {(line: string, font: number, size: number) => number} */
export function widthOf(line, font, size) {
  ruler ??= /** @type {CanvasRenderingContext2D} */ (document.createElement('canvas').getContext('2d'));
  ruler.font = fontOf(font, size);
  return ruler.measureText(line).width;
}

/** Lines of an item that are written at most; the last of more says that there are. */
const MOST_LINES = 400, MORE = '\u2026';

/** The lines of letters, broken at spaces where they would be wider. Each word is measured once, so what a line takes is a sum.
 * @type {(letters: string, wide: number, font: number, size: number) => string[]} */
export function broken(letters, wide, font, size, measure = widthOf) {
  const /** @type {string[]} */ lines = [], /** @type {Map<string, number>} */ widths = new Map(), space = measure(' ', font, size);
  /** @type {(word: string) => number} */
  const wideOf = (word) => {
    const found = word ? widths.get(word) ?? measure(word, font, size) : 0;
    widths.set(word, found);
    return found;
  };
  for (const row of letters.split('\n')) {
    let [line, far] = ['', 0];
    for (const word of row.split(/(?<= )/)) {
      const bare = word.trimEnd(), its = wideOf(bare);
      if (line && far + its > wide) {
        lines.push(line);
        [line, far] = ['', 0];
      }
      [line, far] = [line + word, far + its + (word.length - bare.length) * space];
    }
    lines.push(line);
    if (lines.length > MOST_LINES) break;
  }
  return lines;
}

/** @type {(lines: string[]) => string[]} */
const shortened = (lines) => (lines.length > MOST_LINES ? [...lines.slice(0, MOST_LINES - 1), MORE] : lines);

/** @typedef {{ line: string, x: number, y: number, isFromRight: boolean, align: 'left' | 'right' | 'center' }} Stand */

/** The lines of items, and where they stand.
 * @type {WeakMap<Item, string[]>} */
const known = new WeakMap();
/** @type {WeakMap<Item, Stand[]>} */
const stands = new WeakMap();

/** The lines in which the letters of an item are written.
 * @type {(item: Item) => string[]} */
export function linesOf(item) {
  const found = known.get(item), [a, b] = item.points;
  if (found) return found;
  const room = isClosed(item.kind) && Math.abs(a.x - b.x) - (KINDS[item.kind].isNote ? FREE.note : FREE.shape);
  const lines = shortened(room === false ? item.letters.split('\n') : broken(item.letters, room, 0, SIZES[IN_SHAPES]));
  known.set(item, lines);
  return lines;
}

/** Whether a line is written from right to left: its first letter is.
 * @type {(line: string) => boolean} */
export const isFromRight = (line) => /^[^\p{L}]*[\u0590-\u08ff\ufb1d-\ufdff\ufe70-\ufefc]/u.test(line);

/** How the letters of an item stand: their font and size, the upper left corner of the first line, or its upper middle.
 * @type {(item: Item) => { font: number, size: number, x: number, y: number, isMiddle: boolean }} */
export function standOf(item) {
  const { kind, points: [a, b], width, flag } = item, size = SIZES[IN_SHAPES];
  const { isPlain, isLink, isNote } = KINDS[kind];
  if (isPlain) return { font: 1, size: OF_CELLS, x: a.x, y: a.y + (CELL_HIGH - OF_CELLS * LEADING) / 2, isMiddle: false };
  if (!isClosed(kind)) return { font: isLink ? 0 : flag, size: SIZES[width], x: a.x, y: a.y, isMiddle: false };
  if (isNote) return { font: 0, size, x: Math.min(a.x, b.x) + FREE.note / 2, y: Math.min(a.y, b.y) + FREE.above - size * FREE.size, isMiddle: false };
  return { font: 0, size, x: (a.x + b.x) / 2, y: (a.y + b.y) / 2 - (linesOf(item).length * size * LEADING) / 2, isMiddle: true };
}

/** The lines of an item's letters, each with where it stands: at its left, at its right if it is written from there, or in the middle; and its height there.
 * @type {(item: Item) => Stand[]} */
export function standsOf(item) {
  const found = stands.get(item) ?? standsMade(item);
  stands.set(item, found);
  return found;
}

/** @type {(item: Item) => Stand[]} */
function standsMade(item) {
  const { kind, points: [a, b] } = item, { font, size, x, y, isMiddle } = standOf(item), lines = linesOf(item), isTurned = !isMiddle && lines.some(isFromRight);
  const right = !isTurned ? x : KINDS[kind].isNote ? x + Math.abs(a.x - b.x) - FREE.note : x + Math.max(...lines.map((line) => widthOf(line, font, size)));
  return lines.map((line, i) => ({ line, x: isFromRight(line) ? right : x, y: y + (i + 0.5) * size * LEADING, isFromRight: isFromRight(line), align: isMiddle ? 'center' : isFromRight(line) ? 'right' : 'left' }));
}

/** The box about letters that stand by themselves.
 * @type {(item: Item) => import('./inkpaint.js').Box} */
export function boxOfLetters(item) {
  const { points: [a], letters, kind } = item, { font, size } = standOf(item), lines = linesOf(item);
  if (KINDS[kind].isPlain) return { x0: a.x, y0: a.y, x1: a.x + letters.length * CELL_WIDE, y1: a.y + CELL_HIGH };
  const wide = Math.max(...lines.map((line) => widthOf(line, font, size)));
  return { x0: a.x, y0: a.y, x1: a.x + wide, y1: a.y + lines.length * size * LEADING };
}
