/** A page as text, as SVG, and all pages as one HTML file: texts that are made of cells alone, and of the letters of ink. */
import { boxAbout } from './cells.js';
import { inkOf } from './ink.js';
import { itemsOf } from './inkitems.js';
import { LANGUAGE, isFromRight, wordingIn } from './language.js';
import { Layout } from './layout.js';

/** @typedef {import('./types.js').Board} Board */
/** Some cells of a row, beside one another and of one source: where they begin, and their glyphs.
 * @typedef {{ x: number, y: number, source: number, text: string }} Run */
/** @typedef {{ left: number, top: number, columns: number, rows: number }} Extent */

/** Points of a cell in a picture. */
const WIDE = 9, HIGH = 17, SIZE = 15;

/** The least part of a page that has all of its drawings. It begins at the corner unless the page is used far from there.
 * @type {(board: Board) => Extent} */
export function extentOf({ drawops }) {
  if (!drawops.length) return { left: 0, top: 0, columns: 1, rows: 1 };
  const { x0, y0, x1, y1 } = boxAbout(drawops), left = x0 < 200 ? 0 : x0, top = y0 < 100 ? 0 : y0;
  return { left, top, columns: x1 - left + 1, rows: y1 - top + 1 };
}

/** The layout of a board alone.
 * @type {(board: Board) => Layout} */
export function laidOut(board) {
  const layout = new Layout();
  layout.take(board, { isTurned: true, gone: [], added: board.drawops });
  return layout;
}

/** The runs of a page, from the first row to the last.
 * @type {(layout: Layout, extent: Extent) => Run[]} */
export function runsOf(layout, { left, top, columns, rows }) {
  /** @type {Run[]} */
  const runs = [];
  for (let i = 0; i < rows * columns; i += 1) {
    const [x, y] = [left + (i % columns), top + Math.floor(i / columns)], glyph = layout.glyphAt(x, y);
    const source = layout.drawingAt({ x, y })?.source ?? -1, last = runs.at(-1);
    if (glyph === ' ') continue;
    if (last && last.y === y && last.x + last.text.length === x && last.source === source) last.text += glyph;
    else runs.push({ x, y, source, text: glyph });
  }
  return runs;
}

/** The rows of a page, without spaces at their ends.
 * @type {(board: Board) => string[]} */
function rowsOf(board) {
  const extent = extentOf(board);
  /** @type {string[]} */
  const rows = Array(extent.rows).fill('');
  for (const { x, y, text } of runsOf(laidOut(board), extent)) rows[y - extent.top] = rows[y - extent.top].padEnd(x - extent.left) + text;
  return rows;
}

/** The letters of ink, from the top of the page to its end.
 * @type {(inks: import('./types.js').Drawing[]) => string[]} */
const lettersOf = (inks) => itemsOf(inks).filter(({ letters }) => letters).sort(({ points: [a] }, { points: [b] }) => a.y - b.y || a.x - b.x).map(({ letters }) => letters);

/** A page as text: its rows, and below them the letters of its ink.
 * @type {(board: Board) => string} */
export function textOf(board) {
  const inks = board.drawops.filter(inkOf), plain = inks.length ? board.drawops.filter((drawing) => !inkOf(drawing)) : board.drawops, letters = lettersOf(inks);
  const rows = plain.length || !letters.length ? rowsOf({ ...board, drawops: plain }) : [];
  return [...rows, ...(rows.length && letters.length ? [''] : []), ...letters, ''].join('\n');
}

/** A text as it stands in HTML and SVG. Two codes that are no letters would make the whole no XML.
 * @type {(text: string) => string} */
export const escaped = (text) => text.replace(/[\ufffe\uffff]/g, '\ufffd').replace(/[&<>"]/g, (sign) => `&#${sign.charCodeAt(0)};`);

/** A page as SVG, its letters as text.
 * @type {(board: Board, tintOf: (source: number) => string, paper: string, title: string) => string} */
export function svgOf(board, tintOf, paper, title) {
  const extent = extentOf(board), [width, height] = [extent.columns * WIDE, extent.rows * HIGH];
  const texts = runsOf(laidOut(board), extent).map(({ x, y, source, text }) => `<text x="${(x - extent.left) * WIDE}" y="${(y - extent.top) * HIGH + 13}" `
    + `fill="${tintOf(source)}" textLength="${text.length * WIDE}" lengthAdjust="spacingAndGlyphs">${escaped(text)}</text>`);
  return `<svg xmlns="http://www.w3.org/2000/svg" width="${width}" height="${height}" viewBox="0 0 ${width} ${height}" font-family="monospace" `
    + `font-size="${SIZE}" role="img"><title>${escaped(title)}</title>\n<rect width="100%" height="100%" fill="${paper}"/>\n${texts.join('\n')}\n</svg>\n`;
}

/** All pages as one HTML file that needs nothing else, in a language.
 * @type {(pages: { title: string, svg: string }[], language?: string) => string} */
export function htmlOf(pages, language = LANGUAGE) {
  const style = 'body{margin:2rem;font:16px/1.5 sans-serif}section{margin:0 0 3rem}svg{max-width:100%;height:auto;border:1px solid #ccc}'
    + '@media print{section{break-after:page}}';
  const parts = pages.map(({ title, svg }) => `<section><h2>${escaped(title)}</h2>\n${svg}</section>`);
  return `<!DOCTYPE html>\n<html lang="${language}" dir="${isFromRight(language) ? 'rtl' : 'ltr'}">\n<meta charset="utf-8">\n<title>${wordingIn(language, 'pagesOfBoard', { n: pages.length })}</title>\n<style>${style}</style>\n${parts.join('\n')}\n</html>\n`;
}
