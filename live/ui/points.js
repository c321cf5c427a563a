/** What a point tells of a member beside where it is, by lines among those of what is begun (docs/PROTOCOL.md, "Pointers"). */
import { shapeOf } from './clipboard.js';

/** @typedef {import('./inkpaint.js').Box} Box */
/** What a member has begun; what of its page it has in view, in units; whom it follows; and the number of its call to all.
 * @typedef {{ shapes: import('./types.js').Shape[], view: Box | null, follows: number | null, call: number | null }} Beside */

const LINE = /^(?:(view)(?: (-?\d{1,7})){4}|(follow|call) (\d{1,10}))$/;

/** @type {(box: Box) => string} */
export const viewLine = ({ x0, y0, x1, y1 }) => `view ${[x0, y0, x1, y1].map(Math.round).join(' ')}`;

/** @param {string[]} lines @returns {Beside} */
export function readBeside(lines) {
  /** @type {Beside} */
  const told = { shapes: [], view: null, follows: null, call: null };
  for (const line of lines) {
    const [word, ...numbers] = LINE.test(line) ? line.split(' ') : [''], [x0, y0, x1, y1] = numbers.map(Number), shape = word ? null : shapeOf(line);
    if (shape) told.shapes.push(shape);
    if (word === 'view' && x0 < x1 && y0 < y1) told.view = { x0, y0, x1, y1 };
    if (word === 'follow') told.follows = x0;
    if (word === 'call') told.call = x0;
  }
  return told;
}
