/** A page as SVG by its items: a path for each stroke, and letters as text. */
import { BRIGHT } from './colours.js';
import { escaped } from './exports.js';
import { RULED, ruled } from './ground.js';
import { standOf, standsOf } from './inkfonts.js';
import { KINDS, broadOf, fillOf, isLetters } from './inkkinds.js';
import { MARKER, NOTE, TINT } from './inkmeasures.js';
import { boxAboutAll, inOrder } from './inkpaint.js';
import { outlineOf } from './inkoutline.js';
import { dashesOf, wayOf } from './inkpaths.js';
import { CELL_WIDE, SIZES, WIDTHS } from './inksigns.js';

/** @typedef {import('./inkitems.js').Item} Item */
/** @typedef {Record<string, string>} Colours */

/** Units about the page, and a point of the picture in units: 100 per cent of the sheet. */
const ABOUT = 150, POINT = CELL_WIDE / 10;

/** What a font of letters is in SVG: plain, of one width, a formula. */
const FONTS = ['', ' font-family="monospace"', ' font-style="italic" font-family="serif"'];

/** @type {(item: Item, colour: string) => string} */
function letters(item, colour) {
  const { font, size } = standOf(item);
  // a line from right to left has its start at the right
  return standsOf(item).map(({ line, x, y, isFromRight, align }) => `<text x="${Math.round(x)}" y="${Math.round(y)}" font-size="${size}" dominant-baseline="central" `
    + `text-anchor="${align === 'center' ? 'middle' : 'start'}"${isFromRight ? ' direction="rtl"' : ''}${FONTS[font]} fill="${colour}" stroke="none" xml:space="preserve">${escaped(line)}</text>`).join('');
}

/** @type {(item: Item, colour: string, colours: Colours) => string} */
function part(item, colour, colours) {
  const { kind, width } = item, { isNote, isPressed, isUnder } = KINDS[kind], fill = fillOf(item), dashes = dashesOf(item).join(' ');
  const words = item.letters ? letters(item, isNote ? colours.ink : fill === 2 ? colours.paper : colour) : '';
  if (isLetters(item)) return words;
  if (isPressed) return `<path d="${outlineOf(item)}" fill="${colour}"/>`;
  const under = isNote ? `<path d="${wayOf(item)}" fill="${colours.paper}"/>` : '', inside = fill ? ` fill="${fill === 2 ? colour : BRIGHT[item.colour] ?? colour}" fill-opacity="${isNote ? NOTE.day : fill === 2 ? 1 : TINT}"` : '';
  return `${under}<path d="${wayOf(item)}" stroke="${isNote ? 'none' : colour}" stroke-width="${WIDTHS[width] * broadOf(item)}"`
    + `${isUnder ? ` opacity="${MARKER.dark}"` : ''}${dashes && ` stroke-dasharray="${dashes}"`}${inside}/>${words}`;
}

/** @type {(items: Item[], paints: { colourOf: (item: Item) => string, shades: { colours: Colours } }, title: string, paper?: import('./notes.js').Paper) => string} */
export function svgOfInk(items, paints, title, paper = 'none') {
  const { x0, y0, x1, y1 } = boxAboutAll(items) ?? { x0: 0, y0: 0, x1: 10 * CELL_WIDE, y1: 10 * CELL_WIDE }, [left, top] = [Math.floor(x0 - ABOUT), Math.floor(y0 - ABOUT)];
  const [wide, high] = [Math.ceil(x1 + ABOUT) - left, Math.ceil(y1 + ABOUT) - top], { colours } = paints.shades, parts = inOrder(items).map((item) => part(item, paints.colourOf(item), colours));
  const rules = ruled(paper, { x0: left, y0: top, x1: left + wide, y1: top + high }), under = rules && `<path d="${rules}" stroke="${RULED.colour}" stroke-width="${RULED.width}"/>\n`;
  return `<svg xmlns="http://www.w3.org/2000/svg" width="${Math.round(wide / POINT)}" height="${Math.round(high / POINT)}" viewBox="${left} ${top} ${wide} ${high}" `
    + `fill="none" stroke-linecap="round" stroke-linejoin="round" font-family="sans-serif" font-size="${SIZES[2]}" role="img"><title>${escaped(title)}</title>`
    + `<rect x="${left}" y="${top}" width="100%" height="100%" fill="${colours.paper}"/>\n${under}${parts.join('\n')}\n</svg>\n`;
}
