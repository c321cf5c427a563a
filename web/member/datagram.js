/** Datagrams, read once from their bytes as they go by: what the page shows of them, with their words as `wb words` says them (docs/SCRIPTS.md).
 * What is done about them the host says, which drops what has a number out of its range; here such a number passes. */
export { unhex } from './host.js';

/** A datagram. What its kind does not have is empty.
 * @typedef {object} Datagram
 * @property {string} kind   draw, session-message, request, ask-pages or page-state
 * @property {number} speaker   its source, sender or asker
 * @property {string} page   as C/N
 * @property {string} name   of a drawop, or of what a request asks for: SOURCE C/N NUMBER
 * @property {number} seq   the number of a drawop
 * @property {[number, number][]} marks   the greatest number of each source
 * @property {[number, bigint, bigint][]} echoes   of whom the sender heard: the moment that was told, and how long ago
 * @property {string} words */

const MARK = 0x5742, HEAD = 8, DRAWOP = 1;

/** Whether bytes begin as a datagram does, and are as many as they say. All others go before the pace, so they delay nothing.
 * @param {Uint8Array} bytes */
export function isFramed(bytes) {
  const view = new DataView(bytes.buffer, bytes.byteOffset, bytes.byteLength);
  return bytes.length >= HEAD && view.getUint16(0) === MARK && [1, 2].includes(bytes[2]) && bytes[3] >= 1 && bytes[3] <= 5 && view.getUint32(4) === bytes.length - HEAD;
}

/** @type {Datagram} */
const EMPTY = { kind: '', speaker: 0, page: '', name: '', seq: 0, marks: [], echoes: [], words: '' };

/** Reads numbers one after another. RangeError where the bytes end before. */
class Reader {
  /** @param {Uint8Array} bytes */
  constructor(bytes) {
    this.view = new DataView(bytes.buffer, bytes.byteOffset, bytes.byteLength);
    this.at = 0;
  }

  /** @param {number} size */
  step(size) {
    this.at += size;
    return this.at - size;
  }

  byte() {
    return this.view.getUint8(this.step(1));
  }

  short() {
    return this.view.getUint16(this.step(2));
  }

  number() {
    return this.view.getUint32(this.step(4));
  }

  long() {
    return this.view.getBigUint64(this.step(8));
  }

  page() {
    return `${this.number()}/${this.number()}`;
  }

  /** A letter of ASCII: words are one line. */
  letter() {
    const byte = this.byte();
    if (byte < 32 || byte > 126) throw new RangeError('no letter');
    return String.fromCharCode(byte);
  }

  /** As many as a count says that stands before them.
   * @template T @param {() => T} one @returns {T[]} */
  list(one) {
    return Array.from({ length: this.short() }, one);
  }

  isAtEnd() {
    return this.at === this.view.byteLength;
  }
}

/** @param {Reader} from */
const corners = (from) => `${from.short()} ${from.short()} ${from.short()} ${from.short()} ${from.letter()}`;

/** @param {Reader} from */
function quoted(from) {
  const place = `${from.short()} ${from.short()}`, text = Array.from({ length: from.byte() }, () => from.letter()).join('');
  return `${place} "${text.replace(/["\\]/g, '\\$&')}"`;
}

/** @param {Reader} from */
const target = (from) => `${from.number()} ${from.number()}`;

/** What a drawop may do, by its number: the word for it, and what reads its fields.
 * @type {Record<number, [string, (from: Reader) => string]>} */
const OPERATIONS = { 1: ['line', corners], 2: ['frame', corners], 3: ['text', quoted], 4: ['delete', target], 5: ['restore', target] };

/** @param {Reader} from */
function drawop(from) {
  const speaker = from.number(), page = from.page(), seq = from.number(), time = from.long();
  const [word, fields] = OPERATIONS[from.byte()] ?? [], name = `${speaker} ${page} ${seq}`;
  if (!fields) throw new RangeError('an unknown operation');
  return { kind: 'draw', speaker, page, seq, name, words: `draw ${name} ${time} ${word} ${fields(from)}` };
}

/** @param {Reader} from @returns {[number, number][]} */
const marksOf = (from) => from.list(() => [from.number(), from.number()]);

/** @param {Reader} from @returns {[number, bigint, bigint][]} */
const echoesOf = (from) => from.list(() => [from.number(), from.long(), from.long()]);

/** @param {[number, number][]} marks @param {[number, bigint, bigint][]} [echoes] */
function wordsOf(marks, echoes = []) {
  return [...marks.map(([source, seq]) => ` ${source}=${seq}`), ...echoes.map(([who, sent, held]) => ` ${who}@${sent}+${held}`)].join('');
}

/** @param {Reader} from */
function sessionMessage(from) {
  const speaker = from.number(), sent = from.long(), page = from.page(), marks = marksOf(from), echoes = echoesOf(from);
  return { kind: 'session-message', speaker, page, marks, echoes, words: `session-message ${speaker} ${sent} ${page}${wordsOf(marks, echoes)}` };
}

/** @param {Reader} from */
function request(from) {
  const speaker = from.number(), source = from.number(), page = from.page(), seq = from.number(), name = `${source} ${page} ${seq}`;
  return { kind: 'request', speaker, page, name, words: `request ${speaker} ${name}` };
}

/** @param {Reader} from */
function askPages(from) {
  const speaker = from.number();
  return { kind: 'ask-pages', speaker, words: `ask-pages ${speaker}` };
}

/** @param {Reader} from */
function pageState(from) {
  const speaker = from.number(), page = from.page(), marks = marksOf(from);
  return { kind: 'page-state', speaker, page, marks, words: `page-state ${speaker} ${page}${wordsOf(marks)}` };
}

/** What reads each kind, by its number.
 * @type {Record<number, (from: Reader) => Partial<Datagram>>} */
const KINDS = { [DRAWOP]: drawop, 2: sessionMessage, 3: request, 4: askPages, 5: pageState };

/** The datagram of some bytes, or null where they are none.
 * @param {Uint8Array} bytes @returns {Datagram | null} */
export function readDatagram(bytes) {
  const from = new Reader(bytes);
  try {
    const mark = from.short(), version = from.byte(), kind = from.byte(), size = from.number();
    if (mark !== MARK || !(version === 1 || (version === 2 && kind === DRAWOP)) || size !== bytes.length - HEAD) return null;
    const datagram = { ...EMPTY, ...KINDS[kind]?.(from) };
    return datagram.kind && from.isAtEnd() ? datagram : null;
  } catch (fault) {
    if (fault instanceof RangeError) return null;
    throw fault;
  }
}

/** The digits of each byte. */
const DIGITS = Array.from({ length: 256 }, (_, byte) => byte.toString(16).padStart(2, '0'));

/** Bytes as hexadecimal digits, in which the lines of a host have them. A pass over one text takes a part of the time of joined ones.
 * @param {Uint8Array} bytes */
export function hex(bytes) {
  let digits = '';
  for (const byte of bytes) digits += DIGITS[byte];
  return digits;
}
