/** Names as people see them: letters that show nothing, and names that look the same. */

/** What shows nothing, from a code point to another: fillers, blanks, and marks that join, choose or turn other letters. `live/unseen.py` has the same. */
export const UNSEEN = [
  [0xad, 0xad], [0x34f, 0x34f], [0x61c, 0x61c], [0x115f, 0x1160], [0x17b4, 0x17b5], [0x180b, 0x180f], [0x200b, 0x200f], [0x2028, 0x202e], [0x2060, 0x206f],
  [0x2800, 0x2800], [0x3164, 0x3164], [0xfe00, 0xfe0f], [0xfeff, 0xfeff], [0xffa0, 0xffa0], [0xfff0, 0xfffb], [0x16fe4, 0x16fe4], [0x1bca0, 0x1bca3],
  [0x1d159, 0x1d159], [0x1d173, 0x1d17a], [0xe0000, 0xe0fff],
];

const unseen = UNSEEN.map(([first, last]) => `\\u{${first.toString(16)}}-\\u{${last.toString(16)}}`).join('');

/** Letters of which one shows nothing, or is none. */
export const HIDDEN = new RegExp(`[${unseen}\\p{C}]`, 'u');

/** The same, behind those of them that change the letters about them: two that join letters or pictures, and the one that has a picture in colours. */
const USED = '(?<=[\\p{L}\\p{M}])[\\u200c\\u200d](?=\\p{L})|(?<=\\p{Extended_Pictographic}\\ufe0f?)\\u200d(?=\\p{Extended_Pictographic})|(?<=\\p{Extended_Pictographic})\\ufe0f';
const ALL = new RegExp(HIDDEN.source, 'gu'), UNUSED = new RegExp(`(${USED})|${HIDDEN.source}`, 'gu');

/** Letters that look like others: the first of each is in the place of all. */
const ALIKE = new Map([
  'A\u0391\u0410', 'B\u0392\u0412', 'C\u0421\u03f9', 'E\u0395\u0415', 'H\u0397\u041d', 'I\u0399\u0406\u04c0l1|', 'J\u0408', 'K\u039a\u041a', 'M\u039c\u041c', 'N\u039d', 'O\u039f\u041e0',
  'P\u03a1\u0420', 'S\u0405', 'T\u03a4\u0422', 'X\u03a7\u0425', 'Y\u03a5\u04ae', 'Z\u0396', 'a\u0430', 'c\u0441\u03f2', 'd\u0501', 'e\u0435', 'h\u04bb', 'i\u0456', 'j\u0458', 'o\u03bf\u043e',
  'p\u03c1\u0440', 'q\u051b', 's\u0455', 'v\u03bd', 'w\u051d', 'x\u0445', 'y\u0443',
].flatMap(([first, ...others]) => others.map((other) => [other, first])));

/** Letters without those that show nothing. If no other is left, there are none.
 * @type {(letters: string) => string} */
export const seen = (letters) => (letters.replace(ALL, '').trim() ? letters.replace(UNUSED, '$1').trim() : '');

/** What names that look the same have in common.
 * @type {(name: string) => string} */
export const lookOf = (name) => [...name.normalize('NFKC').replace(ALL, '').replace(/\s+/g, ' ').trim()].map((letter) => ALIKE.get(letter) ?? letter).join('');

/** What members are called: behind names that look the same stand the last digits of the numbers, as many as tell them apart.
 * @type {(names: Map<number, string>) => Map<number, string>} */
export function toldApart(names) {
  const called = new Map(names), /** @type {Map<string, number[]>} */ alike = new Map();
  for (const [member, name] of names) {
    const look = lookOf(name), members = alike.get(look);
    if (members) members.push(member);
    else alike.set(look, [member]);
  }
  for (const [look, members] of alike) {
    const ends = (/** @type {number} */ many) => members.map((member) => String(member).slice(-many));
    let many = look && members.length > 1 ? 2 : 0;
    while (many && new Set(ends(many)).size < members.length) many += 1;
    if (many) members.forEach((member) => called.set(member, `${names.get(member)} (${String(member).slice(-many)})`));
  }
  return called;
}
