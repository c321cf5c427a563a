/** The texts of a stroke (`s`), a stroke with pressure (`v`) or a highlighter (`h`). Each step has 2^scale units as its unit. Texts after the first go on
 * from the one before, so no drawing comes between them.
 * @param {Point[]} points @param {{ colour?: number, width?: number, kind?: 's' | 'v' | 'h', scale?: number }} look */
export function stroke(points: Point[], { colour, width, kind, scale }?: {
    colour?: number;
    width?: number;
    kind?: 's' | 'v' | 'h';
    scale?: number;
}): string[];
/** The texts of a line (`l`: its ends, and perhaps the point that it passes half way), or by two corners of a frame (`r`), an ellipse (`o`), a diamond
 * (`d`) or a note (`n`), with letters.
 * @param {'l' | 'r' | 'o' | 'd' | 'n'} kind @param {Point[]} points @param {{ colour?: number, width?: number, flag?: number, letters?: string }} look */
export function shape(kind: 'l' | 'r' | 'o' | 'd' | 'n', points: Point[], { colour, width, flag, letters }?: {
    colour?: number;
    width?: number;
    flag?: number;
    letters?: string;
}): string[];
/** The texts of letters of any language, from their upper left corner.
 * @param {Point} at @param {string} letters @param {{ colour?: number, size?: number, font?: number }} look */
export function words(at: Point, letters: string, { colour, size, font }?: {
    colour?: number;
    size?: number;
    font?: number;
}): string[];
/** The text of a link, or null where it is none, or too long.
 * @param {Point} at @param {string} address @param {{ colour?: number, width?: number }} look */
export function link(at: Point, address: string, { colour, width }?: {
    colour?: number;
    width?: number;
}): string | null;
/** The n-th ink of a page, from 0, where it covers no other.
 * @param {string} text @param {number} n @returns {import('./drawings.js').Text} */
export function placed(text: string, n: number): import('./drawings.js').Text;
/** The ink of a text, or null if it is none.
 * @param {string} text @returns {Ink | null} */
export function read(text: string): Ink | null;
/** The ink of a drawop, or null if it is none.
 * @param {import('./drawings.js').Drawop} drawop @returns {Ink | null} */
export function inkOf({ operation }: import('./drawings.js').Drawop): Ink | null;
/**
 * A point; whether the pen came to it without drawing; and how it was pressed there, from 0 to 1.
 */
export type Point = {
    x: number;
    y: number;
    up?: boolean;
    pressure?: number;
};
/**
 * What a text draws. Of a stroke the flag is the scale; `goesOn` says that it belongs to the ink before it.
 */
export type Ink = {
    kind: string;
    colour: number;
    width: number;
    flag: number;
    goesOn: boolean;
    points: Point[];
    letters: string;
};
