/** For Node: what closes a session to all who lack its key, by "Sealed datagrams" and "Tagged datagrams" of docs/PROTOCOL.md. */
import { createCipheriv, createDecipheriv, createHmac, randomBytes, timingSafeEqual } from 'node:crypto';

/** How the text of a key begins that tags. */
const TAGS = 'tag.';

/** The envelope: its kind, its bytes before the datagram, and what closes it. */
const SEALED = 2, TAGGED = 3, HEAD = 17, NONCE = 12, TAG = 16;

/** Senders that are remembered, and counters of each below the greatest. */
const MOST_SENDERS = 1_024, BEHIND = 64;

/** @typedef {(datagram: Uint8Array, place: bigint) => void} Take */

/** A key by its text, as an invitation and `wb-live --new-key` have it, for a session of a name: it closes datagrams and opens them. */
export class Key {
  /** @param {string} text @param {string} [session] */
  constructor(text, session = 'board') {
    if (!/^(tag\.)?[A-Za-z0-9_-]{43}$/.test(text)) throw new RangeError('a key has 43 letters of base64url, behind `tag.` if it tags');
    this.bytes = Buffer.from(text.slice(-43).replaceAll('-', '+').replaceAll('_', '/'), 'base64');
    this.session = Buffer.from(session);
    this.kind = text.startsWith(TAGS) ? TAGGED : SEALED;
    this.sender = BigInt.asUintN(63, randomBytes(8).readBigUInt64BE());
    this.sent = 0n;
    /** Of each sender the greatest counter, and bits for that one and those below it; the one that was heard last at the end.
     * @type {Map<bigint, { top: bigint, came: bigint }>} */
    this.senders = new Map();
  }

  /** @param {Uint8Array} data */
  tag(data) {
    return createHmac('sha256', this.bytes).update(Buffer.concat([this.session, Buffer.alloc(2), data])).digest().subarray(0, TAG);
  }

  /** The next datagram of this sender, closed.
   * @param {Uint8Array} datagram @returns {Uint8Array} */
  close(datagram) {
    const head = Buffer.alloc(HEAD);
    this.sent += 1n;
    head[0] = this.kind;
    head.writeBigUInt64BE(this.sender, 1);
    head.writeBigUInt64BE(this.sent, 9);
    const data = Buffer.concat([head, datagram]);
    if (this.kind === TAGGED) return Buffer.concat([data, this.tag(data)]);
    let nonce = randomBytes(NONCE);
    while (nonce[0] === TAGGED) nonce = randomBytes(NONCE); // what begins so is tagged
    const cipher = createCipheriv('aes-256-gcm', this.bytes, nonce).setAAD(this.session);
    return Buffer.concat([nonce, cipher.update(data), cipher.final(), cipher.getAuthTag()]);
  }

  /** A datagram that another sender closed, and the number of that sender; null if it does not open, or came before.
   * @param {Uint8Array} closed */
  open(closed) {
    const isTagged = closed.length >= HEAD + TAG && closed[0] === TAGGED && timingSafeEqual(this.tag(closed.subarray(0, -TAG)), closed.subarray(-TAG));
    const data = isTagged ? Buffer.from(closed.subarray(0, -TAG)) : this.unsealed(closed);
    if (!data || data.length < HEAD || data[0] !== (isTagged ? TAGGED : SEALED)) return null;
    const sender = BigInt.asUintN(63, data.readBigUInt64BE(1));
    return sender !== this.sender && this.isNew(sender, data.readBigUInt64BE(9)) ? { datagram: Uint8Array.from(data.subarray(HEAD)), sender } : null;
  }

  /** @param {Uint8Array} closed */
  unsealed(closed) {
    try {
      const cipher = createDecipheriv('aes-256-gcm', this.bytes, closed.subarray(0, NONCE), { authTagLength: TAG }).setAAD(this.session).setAuthTag(closed.subarray(-TAG));
      return Buffer.concat([cipher.update(closed.subarray(NONCE, -TAG)), cipher.final()]);
    } catch {
      return null;
    }
  }

  /** Whether a datagram comes for the first time. One that is far behind is taken for a repeated one.
   * @param {bigint} sender @param {bigint} counter */
  isNew(sender, counter) {
    const { top, came } = this.senders.get(sender) ?? { top: counter - 1n, came: 0n }, ahead = counter - top;
    if (ahead <= 0n && (ahead < -BEHIND || (came >> -ahead) & 1n)) return false;
    this.senders.delete(sender);
    this.senders.set(sender, ahead <= 0n ? { top, came: came | (1n << -ahead) } : { top: counter, came: ahead > BEHIND ? 1n : BigInt.asUintN(BEHIND + 1, came << ahead) | 1n });
    if (this.senders.size > MOST_SENDERS) this.senders.delete(/** @type {bigint} */ ([...this.senders.keys()][0]));
    return true;
  }

  /** Takes what comes, and hands on what opens: its place is its sender's number, wherever it comes from.
   * @param {Take} take @returns {Take} */
  before(take) {
    return (closed) => {
      const opened = this.open(closed);
      if (opened) take(opened.datagram, opened.sender);
    };
  }
}

/** A transport whose datagrams a key closes. */
export class Closed {
  /** @param {Key} key @param {import('./node.js').Transport} under */
  constructor(key, under) {
    this.key = key;
    this.under = under;
  }

  /** @param {Uint8Array} datagram */
  send(datagram) {
    this.under.send(this.key.close(datagram));
  }

  end() {
    this.under.end();
  }
}

/** The key that closes a session; null for one that is open to everybody. RangeError where neither is said, or both.
 * @param {{ key?: string | undefined, session?: string | undefined, open?: boolean | undefined }} who @param {boolean} [isHere] whether it is of this machine alone */
export function keyOf({ key, session, open = false }, isHere = false) {
  if (key === undefined ? !open && !isHere : open) throw new RangeError('who may draw? a key for those who have it, or open for anybody on the network');
  return key === undefined ? null : new Key(key, session);
}
