/** Where datagrams come from, and the numbers that a host knows origins by. */

/** Where a datagram came from: two that differ are two origins. It has an owner if the network lets nobody else send from there.
 * @typedef {{ place: string, owner: string | null }} Origin */

/** A prime, and a line of a record that says at which point names become numbers. */
const PRIME = 2n ** 61n - 1n, POINT = /^# names ([0-9]{1,19})$/;

/** A number below 2^61 that nobody guesses. Of all these numbers n at most give two names of n letters one number. */
let point = BigInt.asUintN(61, crypto.getRandomValues(new BigUint64Array(1))[0]);

/** Numbers that are remembered, since most datagrams come from few places.
 * @type {Map<string, bigint>} */
const numbers = new Map(), MOST_REMEMBERED = 1_024;

/** The line of a record that has the point. */
export const pointLine = () => `# names ${point}`;

/** Takes the point that a record has, so that an owner has the same number at each start. Whether it has one.
 * @param {string[]} lines */
export function takePoint(lines) {
  const told = lines.flatMap((line) => POINT.exec(line)?.[1] ?? []);
  if (told.length) point = BigInt(told[0]) % PRIME;
  numbers.clear();
  return told.length > 0;
}

/** The number that a host knows a place or an owner by: the value of a polynomial that has the letters of its name.
 * @param {string} name */
export function numberOf(name) {
  let number = numbers.get(name) ?? 1n;
  if (number !== 1n) return number;
  for (const letter of name) number = (number * point + BigInt(letter.codePointAt(0) ?? 0)) % PRIME;
  if (numbers.size >= MOST_REMEMBERED) numbers.clear();
  numbers.set(name, number);
  return number;
}

/** The numbers that a host knows an origin by.
 * @param {Origin} origin
 * @returns {import('./host.js').OriginNumbers} */
export const numbersOf = ({ place, owner }) => ({ place: numberOf(place), owner: owner === null ? null : numberOf(owner) });

/** The word for an origin in the lines of a host: PLACE, or PLACE@OWNER.
 * @param {Origin} origin */
export const wordOf = ({ place, owner }) => (owner === null ? `${numberOf(place)}` : `${numberOf(place)}@${numberOf(owner)}`);
