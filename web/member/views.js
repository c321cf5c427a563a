/** What the words of drawops say, as the host and a view have them; and names and pages in words. */

/** @typedef {import('../../live/ui/types.js').Drawing} Drawing */

/** A drawop, as its words say. `page` is spelled C/N, as everywhere; `name` is its source, page and number.
 * @typedef {{ name: string, source: number, page: string, seq: number, time: number, operation: string[], words: string }} Drawop */

/** The name of a drawop.
 * @typedef {{ source: number, page: string, seq: number }} Name */

/** The drawop of the words `draw SOURCE PAGE SEQ TIME ..`, as the program spells them.
 * @param {string} words @returns {Drawop} */
export function drawopOf(words) {
  const [, source, page, seq, time] = words.split(' ', 5), rest = words.split(' ').slice(5);
  const operation = rest[0] === 'text' ? [...rest.slice(0, 3), rest.slice(3).join(' ')] : rest;
  return { name: `${source} ${page} ${seq}`, source: Number(source), page, seq: Number(seq), time: Number(time), operation, words };
}

/** It puts glyphs on the page: it is neither a delete nor a restore.
 * @param {Drawop} drawop */
export function isDrawing({ operation }) {
  return ['line', 'frame', 'text'].includes(operation[0]);
}

/** The name of the drawing at which a delete or a restore is aimed.
 * @param {Drawop} drawop */
export const aimedBy = ({ page, operation: [, source, seq] }) => `${source} ${page} ${seq}`;

/** @param {Name} name */
export const nameOf = ({ source, page, seq }) => `${source} ${page} ${seq}`;

/** What a board gets of a drawing.
 * @param {Drawop} drawop @returns {Drawing} */
export function fieldsOf({ source, seq, operation, words }) {
  const [op, ...rest] = operation, told = { source, seq, time: words.split(' ', 5)[4], op, words };
  if (op === 'text') return /** @type {any} */ ({ ...told, x: Number(rest[0]), y: Number(rest[1]), text: unquoted(rest[2]) });
  const [x0, y0, x1, y1] = rest.slice(0, 4).map(Number);
  return /** @type {any} */ ({ ...told, x0, y0, x1, y1, glyph: rest[4] });
}

/** What a board gets of a hidden drawing: with who erased it, under which number and when, and of which kind the operation before was.
 * @param {Drawop & { by: Drawop | null, before: Drawop | null }} erased */
export const erasedFieldsOf = ({ by, before, ...drawop }) => ({ ...fieldsOf(drawop),
  erased: by && /** @type {any} */ ([by.source, by.seq, by.words.split(' ', 5)[4], before && before.operation[0]]) });

/** The text that stands in quotes, with a backslash before each quote and each backslash in it.
 * @param {string} quoted */
function unquoted(quoted) {
  return quoted.slice(1, -1).replace(/\\(.)/g, '$1');
}

/** The words of a page for a line: `C N`.
 * @param {string} page */
export const pageWords = (page) => page.replace('/', ' ');

/** The creator and the number of a page.
 * @param {string} page */
export const pageNumbers = (page) => page.split('/').map(Number);

/** By their creators, and then by their numbers.
 * @param {string} one @param {string} other */
export function orderOfPages(one, other) {
  const [a, b] = [pageNumbers(one), pageNumbers(other)];
  return a[0] - b[0] || a[1] - b[1];
}
