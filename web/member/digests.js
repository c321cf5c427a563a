/** Whether others hold of a page what we do: beside each report goes what the host answers to `digest`, in a datagram between drivers, of which no
 * host ever hears (docs/PROTOCOL.md, "Digests"). As `live/digests.py`, which has its bytes. */
import { wordOf } from './origins.js';
import { pageNumbers } from './views.js';

/** @typedef {import('./origins.js').Origin} Origin */
/** What others hold of a page: what we do; more or less, or not all that was drawn has come; or as many drawops as we, and others.
 * @typedef {import('../../live/ui/types.js').Holds} Holds */
/** What a member tells of a page.
 * @typedef {{ member: number, page: string, missing: number, marks: bigint, digest: string }} Told */
/** What a member holds by what it told last, and how often in a row that was another page.
 * @typedef {{ state: Holds, times: number }} Seen */

export const MARK = 'WD';
const VERSION = 1, SIZE = 60, HEAD = 28;

/** What marks are in short: FNV-1a of 64 bits. */
const FIRST = 0xcbf29ce484222325n, FACTOR = 0x100000001b3n;

/** How many tellings in a row say that a page is another until the board says so: a drawing that is under way makes one. */
const TIMES = 2;

/** The most missing that a datagram can say: forged marks of several numbers make more. */
const MOST_MISSING = 0xffffffff;

/** Tellings that wait, pages of members that are remembered, and digests of ours. */
const MOST_WAITING = 128, MOST_SEEN = 512, MOST_OURS = 32;

/** @param {string} digits @returns {number[]} */
const bytesOf = (digits) => (digits.match(/../g) ?? []).map((two) => parseInt(two, 16));

/** @param {Told} told */
export function writeTold({ member, page, missing, marks, digest }) {
  const bytes = new Uint8Array(SIZE), view = new DataView(bytes.buffer);
  bytes.set([MARK.charCodeAt(0), MARK.charCodeAt(1), VERSION]);
  [member, ...pageNumbers(page), Math.min(missing, MOST_MISSING)].forEach((value, i) => view.setUint32(4 + 4 * i, value));
  view.setBigUint64(20, marks);
  bytes.set(bytesOf(digest), HEAD);
  return bytes;
}

/** What the bytes tell, or null where they tell nothing.
 * @param {Uint8Array} bytes @returns {Told | null} */
export function readTold(bytes) {
  const view = new DataView(bytes.buffer, bytes.byteOffset, bytes.length);
  if (bytes.length !== SIZE || String.fromCharCode(bytes[0], bytes[1]) !== MARK || bytes[2] !== VERSION || bytes[3] !== 0) return null;
  const digest = [...bytes.subarray(HEAD)].map((byte) => byte.toString(16).padStart(2, '0')).join('');
  return { member: view.getUint32(4), page: `${view.getUint32(8)}/${view.getUint32(12)}`, missing: view.getUint32(16), marks: view.getBigUint64(20), digest };
}

/** Of each source, in ascending order, its number and the greatest number that is held.
 * @param {Iterable<[number, number]>} marks */
export function inShort(marks) {
  const view = new DataView(new ArrayBuffer(8));
  let short = FIRST;
  for (const [source, high] of [...marks].sort(([one], [other]) => one - other)) {
    view.setUint32(0, source);
    view.setUint32(4, high);
    for (let at = 0; at < 8; at += 1) short = BigInt.asUintN(64, (short ^ BigInt(view.getUint8(at))) * FACTOR);
  }
  return short;
}

/** What a member holds by what it tells, if it was another page that many times before.
 * @param {Told} ours @param {Told} told @param {number} times @returns {Seen} */
export function judged(ours, told, times) {
  if (told.digest === ours.digest) return { state: 'same', times: 0 };
  if (told.marks !== ours.marks || told.missing || ours.missing) return { state: 'not-yet', times: 0 };
  return { state: times + 1 >= TIMES ? 'another' : 'not-yet', times: times + 1 };
}

/** Takes the first out of what is remembered if that is too much.
 * @param {Map<string, any>} kept @param {number} most */
function limit(kept, most) {
  if (kept.size > most) kept.delete([...kept.keys()][0]);
}

export class Digests {
  /** @param {import('./member.js').Member} member */
  constructor(member) {
    this.member = member;
    /** Of a page: the host that gave it, of how many drawops, the marks in short, and the digest.
     * @type {Map<string, { host: any, count: number, marks: bigint, digest: string }>} */
    this.ours = new Map();
    /** By member and page.
     * @type {Map<string, Seen>} */
    this.seen = new Map();
    /** What was heard and not yet looked at, by its member and where that spoke.
     * @type {Map<string, { told: Told, origin: Origin }>} */
    this.waiting = new Map();
    /** The pages of which a report went out.
     * @type {Set<string>} */
    this.reported = new Set();
  }

  /** Tells what we hold of the pages that were reported, and looks at what was heard. */
  async turn() {
    const pages = [...this.reported], waiting = [...this.waiting.values()];
    this.reported.clear();
    this.waiting.clear();
    for (const page of pages) this.member.transport.send(writeTold(await this.told(page)));
    for (const { told, origin } of waiting) if (this.member.judging.heard.isOf(told.member, origin)) await this.notice(told);
  }

  /** @param {string} page @returns {Promise<Told>} */
  async told(page) {
    const { me, board, drawn, telling } = this.member, sheet = drawn.sheet(page), count = sheet.drawops.size, { host } = board;
    let ours = this.ours.get(page);
    if (!ours || ours.host !== host || ours.count !== count) ours = { host, count, marks: inShort(sheet.tops), digest: await board.digest(page) };
    this.ours.delete(page);
    this.ours.set(page, ours);
    limit(this.ours, MOST_OURS);
    return { member: me, page, missing: telling.reported.missing(page, drawn), marks: ours.marks, digest: ours.digest };
  }

  /** A datagram came in from a member. The last that comes before the next turn counts.
   * @param {Uint8Array} bytes @param {Origin} origin */
  hear(bytes, origin) {
    const told = readTold(bytes);
    if (!told || told.member === this.member.me || this.waiting.size >= MOST_WAITING) return;
    this.waiting.set(`${told.member} ${wordOf(origin)}`, { told, origin });
    this.member.wake();
  }

  /** @param {Told} told */
  async notice(told) {
    const key = `${told.member} ${told.page}`, before = this.seen.get(key), seen = judged(await this.told(told.page), told, before?.times ?? 0);
    this.seen.delete(key);
    this.seen.set(key, seen);
    limit(this.seen, MOST_SEEN);
  }

  /** What a member holds of a page, if it has told that.
   * @param {number} member @param {string} page @returns {Holds | null} */
  of(member, page) {
    return this.seen.get(`${member} ${page}`)?.state ?? null;
  }
}
