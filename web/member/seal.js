/** The key of a session: each datagram goes in an envelope that nobody makes without it. It seals by AES-256-GCM, with the session's name as what goes
 * with it; or, with `tag.` before it, it tags by HMAC-SHA-256: nobody else writes, and all can read. `live/carriers/sealed.py` does the same. */
import { writeGone } from './presence.js';

/** @typedef {import('./origins.js').Origin} Origin */

const NONCE = 12, TAG = 16;

/** How the text of a key begins that tags. */
const TAGS = 'tag.';

/** Kinds of envelopes, by how they are closed. */
const SEALED = 2, TAGGED = 3;

/** @param {string} text base64url, with `tag.` before it if it tags @returns {Uint8Array} */
export function keyBytes(text) {
  const letters = text.startsWith(TAGS) ? text.slice(TAGS.length) : text;
  const bytes = Uint8Array.from(atob(letters.replaceAll('-', '+').replaceAll('_', '/')), (letter) => letter.charCodeAt(0));
  if (bytes.length !== 32) throw new Error('a key has 32 bytes');
  return bytes;
}

/** A new key, as base64url. */
export function newKey() {
  const letters = String.fromCharCode(...crypto.getRandomValues(new Uint8Array(32)));
  return btoa(letters).replaceAll('+', '-').replaceAll('/', '_').replaceAll('=', '');
}

/** Whether this page may close by a key: browsers let only pages that came safely do so. */
export const canSeal = () => Boolean(globalThis.crypto?.subtle);

export class Seal {
  /** @param {CryptoKey} key of AES-GCM @param {CryptoKey} mac of HMAC @param {string} session @param {boolean} tags whether it tags */
  constructor(key, mac, session, tags) {
    this.key = key;
    this.mac = mac;
    this.tags = tags;
    this.kind = tags ? TAGGED : SEALED;
    this.more = new TextEncoder().encode(session);
  }

  /** @param {string} key @param {string} session */
  static async of(key, session) {
    if (!canSeal()) throw new Error('a key takes a page that came by https, or from this machine');
    const bytes = keyBytes(key), { subtle } = crypto;
    const mac = await subtle.importKey('raw', bytes, { name: 'HMAC', hash: 'SHA-256' }, false, ['sign']);
    return new Seal(await subtle.importKey('raw', bytes, 'AES-GCM', false, ['encrypt', 'decrypt']), mac, session, key.startsWith(TAGS));
  }

  /** Closed bytes: a nonce and then the ciphertext, or the bytes and then their tag.
   * @param {Uint8Array} plain @param {Uint8Array} [iv] the nonce, which is random */
  async close(plain, iv = newNonce()) {
    if (this.tags) return joined(plain, await this.tagOf(plain));
    return joined(iv, new Uint8Array(await crypto.subtle.encrypt({ name: 'AES-GCM', iv, additionalData: this.more }, this.key, plain)));
  }

  /** The tag of bytes with which nothing else goes: behind the session's name a byte 0, and how many bytes that is.
   * @param {Uint8Array} plain */
  async tagOf(plain) {
    return new Uint8Array(await crypto.subtle.sign('HMAC', this.mac, joined(this.more, new Uint8Array(2), plain))).subarray(0, TAG);
  }

  /** What closed bytes have, and how they are closed, or null where they were not closed by this key for this session.
   * @param {Uint8Array} closed */
  async open(closed) {
    if (closed[0] === TAGGED) {
      const plain = closed.subarray(0, -TAG);
      return isSame(await this.tagOf(plain), closed.subarray(-TAG)) ? { plain, kind: TAGGED } : null;
    }
    try {
      const how = { name: 'AES-GCM', iv: closed.subarray(0, NONCE), additionalData: this.more };
      return { plain: new Uint8Array(await crypto.subtle.decrypt(how, this.key, closed.subarray(NONCE))), kind: SEALED };
    } catch {
      return null;
    }
  }
}

/** One that does not begin as a tagged envelope does.
 * @returns {Uint8Array} */
function newNonce() {
  const nonce = crypto.getRandomValues(new Uint8Array(NONCE));
  return nonce[0] === TAGGED ? newNonce() : nonce;
}

/** @param {Uint8Array[]} parts */
function joined(...parts) {
  const made = new Uint8Array(parts.reduce((size, part) => size + part.length, 0));
  let at = 0;
  for (const part of parts) {
    made.set(part, at);
    at += part.length;
  }
  return made;
}

/** Whether two tags are the same, in a time that does not tell where they part.
 * @param {Uint8Array} one @param {Uint8Array} other */
const isSame = (one, other) => one.reduce((differs, byte, i) => differs | (byte ^ other[i]), 0) === 0;

// ---- what is closed

/** Bytes of an envelope before the datagram: its kind, the tag of a start, and the counter. */
const BEFORE = 17;

/** Whether bytes begin as a datagram, a pointer or a last will does that no key closed: nothing is tried on those, since that costs more than all else.
 * @param {Uint8Array} bytes */
const isPlain = ([first, second, third, fourth]) => first === 87 && (
  second === 66 ? [1, 2].includes(third) && fourth >= 1 && fourth <= 5 : [71, 80].includes(second) && third === 1 && fourth === 0);

/** A tag that no other start has: sixteen letters, of a number below 2^63. */
export const newTag = () => BigInt.asUintN(63, crypto.getRandomValues(new BigUint64Array(1))[0]).toString(16).padStart(16, '0');

/** @param {string} tag @param {bigint} counter @param {Uint8Array} bytes @param {number} [kind] */
export function writeEnvelope(tag, counter, bytes, kind = SEALED) {
  const plain = new Uint8Array(BEFORE + bytes.length), view = new DataView(plain.buffer);
  plain[0] = kind;
  view.setBigUint64(1, BigInt(`0x${tag}`));
  view.setBigUint64(9, counter);
  plain.set(bytes, BEFORE);
  return plain;
}

/** The tag, the counter and the datagram of what was closed, or null where it says that it is closed in another way: 0.1.0 sealed the datagram alone.
 * @param {Uint8Array} plain @param {number} [kind] how it was closed */
export function readEnvelope(plain, kind = SEALED) {
  if (plain.length < BEFORE || plain[0] !== kind) return null;
  const view = new DataView(plain.buffer, plain.byteOffset), tag = BigInt.asUintN(63, view.getBigUint64(1)).toString(16).padStart(16, '0');
  return { tag, counter: view.getBigUint64(9), bytes: plain.subarray(BEFORE) };
}

/** Tags that are remembered, and counters of each below the greatest. */
const MOST_TAGS = 1_024, BELOW = 64;

/** Of a tag the greatest counter, and bits for that one and those below it: whether each came.
 * @typedef {{ top: bigint, came: bigint }} Counted */

/** What is remembered of a tag when a counter came that is so much ahead of the greatest, or below it.
 * @param {Counted} counted @param {bigint} ahead @returns {Counted} */
function after({ top, came }, ahead) {
  if (ahead <= 0n) return { top, came: came | (1n << -ahead) };
  return { top: top + ahead, came: ahead > BELOW ? 1n : BigInt.asUintN(BELOW + 1, came << ahead) | 1n };
}

/** Which counters of a tag came: a datagram that somebody sends again is not heeded twice. */
export class Counters {
  constructor() {
    /** By tag, the one that was heard last at the end.
     * @type {Map<string, Counted>} */
    this.tags = new Map();
  }

  /** Whether a counter came, or is far below the greatest of its tag.
   * @param {string} tag @param {bigint} counter */
  hasCome(tag, counter) {
    const counted = this.tags.get(tag), below = counted ? counted.top - counter : -1n;
    return below > BELOW || (counted !== undefined && below >= 0n && ((counted.came >> below) & 1n) === 1n);
  }

  /** Whether a counter is new for its tag. It is not new again.
   * @param {string} tag @param {bigint} counter */
  takes(tag, counter) {
    if (this.hasCome(tag, counter)) return false;
    const counted = this.tags.get(tag) ?? { top: counter - 1n, came: 0n };
    this.tags.delete(tag);
    this.tags.set(tag, after(counted, counter - counted.top));
    if (this.tags.size > MOST_TAGS) this.tags.delete([...this.tags.keys()][0]);
    return true;
  }
}

/** A transport whose datagrams a key closes, each with the tag of this start and a counter. Where one comes from is its tag. What does not open is
 * dropped and counted, and what came before is dropped. */
export class Sealed {
  /** @param {Seal} seal @param {import('./transports.js').Take} take */
  constructor(seal, take) {
    this.seal = seal;
    this.hand = take;
    this.tag = newTag();
    this.counter = 0n;
    this.counters = new Counters();
    this.foreign = 0;
    this.strangers = 0; // who has the key answers soon
    /** @type {import('./transports.js').Transport | null} */
    this.under = null;
  }

  get where() {
    return `${this.under?.where}, ${this.seal.tags ? 'tagged' : 'sealed'} by the key of the invitation`;
  }

  get state() {
    return this.under?.state ?? '';
  }

  get here() {
    return this.under?.here ?? null;
  }

  /** What costs least is looked at first. Of a tagged datagram the tag of its start and the counter stand in the open: if it came, nothing else tells more.
   * @param {Uint8Array} sealed @param {Origin} origin */
  async take(sealed, { owner }) {
    const mayBeClosed = sealed.length >= BEFORE + TAG && !isPlain(sealed), shown = mayBeClosed && readEnvelope(sealed, TAGGED);
    if (shown && this.counters.hasCome(shown.tag, shown.counter)) return;
    const opened = mayBeClosed ? await this.seal.open(sealed) : null, told = opened && readEnvelope(opened.plain, opened.kind);
    if (!told) this.foreign += 1;
    else if (told.tag !== this.tag && this.counters.takes(told.tag, told.counter)) this.hand(told.bytes, originOf(told.tag, owner));
  }

  /** @param {Uint8Array} bytes */
  async send(bytes) {
    this.counter += 1n;
    this.under?.send(await this.seal.close(writeEnvelope(this.tag, this.counter, bytes, this.seal.kind)));
  }

  /** The last will: it tells our tag, and has another, since by the time that it comes our counter has gone on. */
  will() {
    return this.seal.close(writeEnvelope(newTag(), 1n, writeGone(this.tag), this.seal.kind));
  }

  /** @param {string} tag @param {Origin} origin */
  goneBy(tag, { owner }) {
    return originOf(tag, owner);
  }

  end() {
    this.under?.end();
  }
}

/** Where a datagram comes from that has a tag. A broker that keeps names says besides whose it is.
 * @param {string} tag @param {string | null} owner @returns {Origin} */
const originOf = (tag, owner) => ({ place: owner === null ? tag : `${owner}/${tag}`, owner });
