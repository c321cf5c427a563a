/** What an operation in words draws, or null where it is none.
 * @param {string} operation @returns {Drawing | null} */
export function drawingIn(operation: string): Drawing | null;
/** A drawing in words.
 * @param {Drawing | string} drawing */
export function wordsOf(drawing: Drawing | string): string;
/** The page of a text such as 7/1, or null.
 * @param {string} page @returns {[number, number] | null} */
export function pageIn(page: string): [number, number] | null;
/** The drawop of a drawing that has no name yet. Null where it is none, or is not written as a host writes it: a line says what is wrong.
 * @param {string} page @param {number | bigint} time @param {string} operation @returns {Uint8Array | null} */
export function draftOf(page: string, time: number | bigint, operation: string): Uint8Array | null;
/** The drawop of a datagram, or null where it has none. A host says whether its numbers are in their ranges.
 * @param {Uint8Array} datagram @returns {Drawop | null} */
export function drawopOf(datagram: Uint8Array): Drawop | null;
/**
 * A line, or the four sides of a rectangle, between two cells. x is below 4096 and runs to the right, and so is y, which runs down.
 */
export type Corners = {
    kind: 'line' | 'frame';
    x0: number;
    y0: number;
    x1: number;
    y1: number;
    glyph: string;
};
/**
 * A text of 1 to 64 characters, from the space to `~`, one a cell.
 */
export type Text = {
    kind: 'text';
    x: number;
    y: number;
    text: string;
};
/**
 * Hides the drawop of this source and this number on its page, or shows it again.
 */
export type Aimed = {
    kind: 'delete' | 'restore';
    source: number;
    number: number;
};
export type Drawing = Corners | Text | Aimed;
/**
 * A drawop. Its operation is in words, as `line 0 0 4 0 *`; `drawingIn` gives what it draws, with types. Its source, its page and its number are its
 * name, which no other has.
 */
export type Drawop = {
    source: number;
    /**
     * as `1/1`: its creator and its number
     */
    page: string;
    number: number;
    time: bigint;
    operation: string;
};
