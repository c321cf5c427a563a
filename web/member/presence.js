/** Where others point, what they have begun, and who is gone: datagrams between drivers, of which no host ever hears. They are not repaired
 * and not recorded. The bytes of a point are those of `live/presence.py`: "WP", the version 1 and a zero; the member (4 bytes); the page: creator and number
 * (4 each); the column and the row (2 each), or 65535 and 65535 where it points nowhere; and then what is begun, as lines of ASCII such as
 * `line 0 0 4 4 *`. Numbers are unsigned, with the most significant byte first. The datagram that tells of a member that it is gone, which a
 * broker gives in its place, has "WG", the version and the zero, and then the name under which it spoke. */
import { MARK as DIGESTS } from './digests.js';
import { pageNumbers } from './views.js';

/** @typedef {import('../../live/ui/types.js').Pointed} Pointed */

const MARK = 'WP', VERSION = 1, HEAD = 20;

/** Coordinates are below this; this one points nowhere. */
const SIDE = 4_096, NOWHERE = 65_535;

/** Bytes of what is begun, and its lines. */
const MOST_BEGUN = 700, MOST_LINES = 40;

/** Members that are remembered, for how many milliseconds, and their datagrams that are heeded in a second. */
const MOST_MEMBERS = 64, STAYS = 4_000, MOST_A_SECOND = 25;

/** Milliseconds between two tellings: it tells all at once what others point at meanwhile. */
const TELL_PAUSE = 100;

const GONE = 'WG', encoder = new TextEncoder(), decoder = new TextDecoder();

/** @param {Uint8Array} bytes */
const markOf = (bytes) => decoder.decode(bytes.subarray(0, 2));

/** Whether a datagram is for drivers alone.
 * @param {Uint8Array} bytes */
export const isAside = (bytes) => [MARK, DIGESTS, GONE].includes(markOf(bytes));

/** Whether it tells what somebody holds of a page.
 * @param {Uint8Array} bytes */
export const isDigest = (bytes) => markOf(bytes) === DIGESTS;

/** The datagram that tells that who spoke under a name is gone.
 * @param {string} name */
export const writeGone = (name) => new Uint8Array([...encoder.encode(GONE), VERSION, 0, ...encoder.encode(name)]);

/** The name of who is gone, where a datagram tells that.
 * @param {Uint8Array} bytes @returns {string | null} */
export const readGone = (bytes) => (markOf(bytes) === GONE && bytes[2] === VERSION && bytes[3] === 0 ? decoder.decode(bytes.subarray(4)) : null);

/** The bytes of a point; of what is begun, as many lines as there is room for.
 * @param {Pointed} pointed */
export function writePoint({ member, page, cell, begun }) {
  const [creator, number] = pageNumbers(page), [x, y] = cell ?? [NOWHERE, NOWHERE];
  let lines = '';
  for (const line of begun.slice(0, MOST_LINES)) if (lines.length + line.length < MOST_BEGUN) lines += `${line}\n`;
  const bytes = new Uint8Array(HEAD + lines.length), view = new DataView(bytes.buffer);
  bytes.set(encoder.encode(MARK));
  bytes[2] = VERSION;
  [member, creator, number].forEach((value, i) => view.setUint32(4 + 4 * i, value));
  view.setUint16(16, x);
  view.setUint16(18, y);
  bytes.set(encoder.encode(lines), HEAD);
  return bytes;
}

/** A point from its bytes, or null where they are none.
 * @param {Uint8Array} bytes @returns {Pointed | null} */
export function readPoint(bytes) {
  if (markOf(bytes) !== MARK || bytes.length < HEAD || bytes.length > HEAD + MOST_BEGUN || bytes[2] !== VERSION) return null;
  const view = new DataView(bytes.buffer, bytes.byteOffset), x = view.getUint16(16), y = view.getUint16(18), isNowhere = x === NOWHERE && y === NOWHERE;
  const begun = bytes.subarray(HEAD);
  if (!(isNowhere || Math.max(x, y) < SIDE) || !begun.every((byte) => byte === 10 || (byte >= 32 && byte < 127))) return null;
  const lines = decoder.decode(begun).split('\n');
  if (!lines[lines.length - 1]) lines.pop();
  return { member: view.getUint32(4), page: `${view.getUint32(8)}/${view.getUint32(12)}`, cell: isNowhere ? null : [x, y], begun: lines.slice(0, MOST_LINES) };
}

/** A point as the page asks for it, or null where it is none.
 * @param {number} member @param {string} page @param {any} cell @param {any} begun @returns {Pointed | null} */
export function pointOf(member, page, cell, begun) {
  const isCell = cell === null || (Array.isArray(cell) && cell.length === 2 && cell.every((part) => Number.isInteger(part) && part >= 0 && part < SIDE));
  const isBegun = Array.isArray(begun) && begun.every((line) => typeof line === 'string' && /^[ -~]*$/.test(line));
  return isCell && isBegun && /^\d{1,10}\/\d{1,10}$/.test(page) ? { member, page, cell, begun } : null;
}

/** The others that point somewhere, as they were heard last. */
export class Presence {
  /** @param {(news: { others: Pointed[] }) => void} tell gets them if one is heard */
  constructor(tell) {
    this.tell = tell;
    /** @type {Map<number, { at: number, point: Pointed }>} */
    this.others = new Map();
    this.nextAt = 0;
    this.isWaiting = false;
    this.second = 0;
    /** Datagrams of this second, by member.
     * @type {Map<number, number>} */
    this.heeded = new Map();
  }

  /** A datagram came in. One that is none, or ours, or one of too many, is dropped.
   * @param {Uint8Array} bytes @param {number} me */
  hear(bytes, me) {
    const point = readPoint(bytes);
    if (!point || point.member === me || !this.heeds(point.member)) return;
    this.others.delete(point.member);
    if (point.cell || point.begun.length) this.others.set(point.member, { at: performance.now(), point });
    if (this.isWaiting) return;
    this.isWaiting = true;
    const wait = this.nextAt - performance.now();
    if (wait > 0) setTimeout(() => this.tellAll(), wait);
    else this.tellAll();
  }

  tellAll() {
    this.isWaiting = false;
    this.nextAt = performance.now() + TELL_PAUSE;
    this.forget();
    this.tell({ others: [...this.others.values()].map((other) => other.point) });
  }

  /** Whether it is one of not too many of this second.
   * @param {number} member */
  heeds(member) {
    const now = Math.floor(performance.now() / 1_000), count = (now === this.second ? this.heeded.get(member) ?? 0 : 0) + 1;
    if (now !== this.second) [this.second, this.heeded] = [now, new Map()];
    this.heeded.set(member, count);
    return count <= MOST_A_SECOND && this.heeded.size <= MOST_MEMBERS;
  }

  /** Those that were not heard for long point nowhere any more, and the first of too many. */
  forget() {
    const end = performance.now() - STAYS;
    for (const [member, { at }] of this.others) if (at < end || this.others.size > MOST_MEMBERS) this.others.delete(member);
  }
}
