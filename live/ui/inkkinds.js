/** The kinds of ink, and of plain drawings, in one table (docs/INK.md, "The head"): what is asked of a kind anywhere stands here. */
import { CORNERS, MARKER } from './inkmeasures.js';

/** How a kind is drawn: as points, from end to end, about a box, or as letters. */
/** @typedef {'stroke' | 'line' | 'closed' | 'letters'} Form */
/** A kind. `broad`: how many times as wide as its pen it is; `isUnder`: it lies below all others; `isPressed`: its width changes; `isNote`: it is filled
 * thinly, without a border; `isPlain`: it is a drawing by cells, and no ink; `goesOn`: the next ink may go on from it. `width`: what of a look its width is;
 * `looks`: what else it may have of one. Of a closed kind `way` is its path in a box, and `deep` how far a point is inside its border, about, by
 * its distances from the middle and half the sides.
 * @typedef {{ form: Form, name: import('./language.js').Key, broad?: number, isUnder?: boolean, isPressed?: boolean, isNote?: boolean, isPlain?: boolean, isLink?: boolean, goesOn?: boolean,
 *   width?: 'width' | 'broad' | 'size', looks?: string[], way?: (x: number, y: number, w: number, h: number) => string,
 *   deep?: (dx: number, dy: number, wide: number, high: number) => number }} Kind */

/** What shapes may have. */
const SHAPE = ['dashed', 'filled', 'full'];

/** A frame with corners of some units.
 * @type {(corner: number) => (x: number, y: number, w: number, h: number) => string} */
const framed = (corner) => (x, y, w, h) => {
  const r = Math.min(corner, w / 2, h / 2);
  return `M${x + r} ${y}h${w - 2 * r}a${r} ${r} 0 0 1 ${r} ${r}v${h - 2 * r}a${r} ${r} 0 0 1 ${-r} ${r}h${2 * r - w}a${r} ${r} 0 0 1 ${-r} ${-r}v${2 * r - h}a${r} ${r} 0 0 1 ${r} ${-r}Z`;
};

/** @type {(dx: number, dy: number, wide: number, high: number) => number} */
const deepInFrame = (dx, dy, wide, high) => Math.min(wide - dx, high - dy);

/** @type {Record<string, Kind>} */
export const KINDS = {
  s: { form: 'stroke', name: 'writing', goesOn: true, width: 'width' },
  h: { form: 'stroke', name: 'markerInk', goesOn: true, width: 'broad', broad: MARKER.wide, isUnder: true },
  v: { form: 'stroke', name: 'writing', goesOn: true, width: 'width', isPressed: true },
  l: { form: 'line', name: 'shape', width: 'width', looks: ['dashed'] },
  r: { form: 'closed', name: 'shape', width: 'width', looks: SHAPE, way: framed(CORNERS.frame), deep: deepInFrame },
  o: { form: 'closed', name: 'shape', width: 'width', looks: SHAPE,
    way: (x, y, w, h) => `M${x} ${y + h / 2}A${w / 2} ${h / 2} 0 1 1 ${x + w} ${y + h / 2}A${w / 2} ${h / 2} 0 1 1 ${x} ${y + h / 2}Z`,
    deep: (dx, dy, wide, high) => (1 - Math.hypot(dx / wide, dy / high)) * Math.min(wide, high) },
  d: { form: 'closed', name: 'shape', width: 'width', looks: SHAPE, way: (x, y, w, h) => `M${x + w / 2} ${y}L${x + w} ${y + h / 2}L${x + w / 2} ${y + h}L${x} ${y + h / 2}Z`,
    deep: (dx, dy, wide, high) => (1 - dx / wide - dy / high) * ((wide * high) / Math.hypot(wide, high)) },
  n: { form: 'closed', name: 'shape', isNote: true, way: framed(CORNERS.note), deep: deepInFrame },
  t: { form: 'letters', name: 'opText', goesOn: true, width: 'size' },
  k: { form: 'letters', name: 'opText', isLink: true },
  line: { form: 'line', name: 'opLine', isPlain: true },
  frame: { form: 'closed', name: 'opFrame', isPlain: true, way: framed(0), deep: deepInFrame },
  text: { form: 'letters', name: 'opText', isPlain: true },
};

/** @typedef {{ kind: string }} OfKind */

/** @type {(kind: string) => boolean} */
export const isStroke = (kind) => KINDS[kind].form === 'stroke';

/** Ink about a box: two points are its corners, and it may have letters.
 * @type {(kind: string) => boolean} */
export const isClosed = (kind) => KINDS[kind].form === 'closed' && !KINDS[kind].isPlain;

/** Whether an item is letters alone.
 * @type {(item: OfKind) => boolean} */
export const isLetters = ({ kind }) => KINDS[kind].form === 'letters';

/** Whether an item goes from one end to another.
 * @type {(item: OfKind) => boolean} */
export const isLine = ({ kind }) => KINDS[kind].form === 'line';

/** Whether an item has letters that can be typed anew.
 * @type {(item: OfKind) => boolean} */
export const isTyped = ({ kind }) => kind === 't' || isClosed(kind);

/** How many times as wide as its pen an item is.
 * @type {(item: OfKind) => number} */
export const broadOf = ({ kind }) => KINDS[kind].broad ?? 1;

/** How a closed item is filled: not, thinly, or fully.
 * @type {(item: OfKind & { flag: number }) => number} */
export const fillOf = ({ kind, flag }) => (KINDS[kind].isNote ? 1 : isClosed(kind) ? flag & 3 : 0);
