/** Letters of all languages in printable ASCII, and which of them an address of a link may have (docs/INK.md, "Letters"). */
import { MOST_SIGNS, TILDE, numberOf, spelled, valueOf } from './inksigns.js';

/** Letters after a tilde are of two signs from `FIRST_SHORT` on, and of three from `FIRST_LONG` on; the first of three signs is at
 * least `LONG`. */
const FIRST_SHORT = 128, LONG = 46, FIRST_LONG = FIRST_SHORT + LONG * 92, LAST_LONG = LONG * 92 * 92 - 1;

/** Those below that have three signs too: a new line, and the tilde itself. */
const NEW_LINE = 10, ESCAPED = [NEW_LINE, 126];

/** @type {(code: number) => boolean} */
const isSurrogate = (code) => code >= 0xd800 && code < 0xe000;

/** A letter as signs. A letter that has none is a question mark.
 * @type {(letter: string) => string} */
function signsOf(letter) {
  const code = /** @type {number} */ (letter.codePointAt(0));
  if (code >= 32 && code < 126) return letter;
  if (code >= FIRST_SHORT && code < FIRST_LONG) return TILDE + spelled(code - FIRST_SHORT, 2);
  if (ESCAPED.includes(code) || (code >= FIRST_LONG && code <= LAST_LONG && !isSurrogate(code))) return TILDE + spelled(LONG * 92 * 92 + code, 3);
  return '?';
}

/** The signs of each letter of a text.
 * @type {(letters: string) => string[]} */
export const writeLetters = (letters) => [...letters].map(signsOf);

/** The signs of letters in texts, of which the first has begun, and each other begins in one way.
 * @type {(first: string, letters: string[], next: string) => string[]} */
export function inTexts(first, letters, next) {
  const texts = [first];
  for (const signs of letters) {
    if (texts[texts.length - 1].length + signs.length > MOST_SIGNS) texts.push(next);
    texts[texts.length - 1] += signs;
  }
  return texts;
}

/** The code of the letter whose signs begin after a tilde, and how many signs it has. NaN if they are none.
 * @type {(signs: string) => [number, number]} */
function codeOf(signs) {
  if (valueOf(signs[0]) < LONG) return [signs.length < 2 ? NaN : FIRST_SHORT + numberOf(signs.slice(0, 2)), 2];
  const code = signs.length < 3 ? NaN : numberOf(signs.slice(0, 3)) - LONG * 92 * 92;
  return [(code >= FIRST_LONG && !isSurrogate(code)) || ESCAPED.includes(code) ? code : NaN, 3];
}

/** The letters of signs, or null if these do not read.
 * @type {(signs: string) => string | null} */
export function readLetters(signs) {
  let letters = '';
  for (let at = 0; at < signs.length; at += 1) {
    if (signs[at] === TILDE) {
      const [code, many] = codeOf(signs.slice(at + 1, at + 4));
      if (Number.isNaN(code)) return null;
      letters += String.fromCodePoint(code);
      at += many;
    } else letters += signs[at];
  }
  return letters;
}

/** No white space, and in the host none of the signs at which a browser ends it or takes it for another's name. */
const ADDRESS = /^https?:\/\/[^\s\x85/?#@\\]+([/?#][^\s\x85]*)?$/;

/** @type {(letters: string) => boolean} */
export const isAddress = (letters) => ADDRESS.test(letters);
