/** Drawings: what they draw, with types and in words, and the bytes of a drawop (docs/PROTOCOL.md). */

/** A line, or the four sides of a rectangle, between two cells. x is below 4096 and runs to the right, and so is y, which runs down.
 * @typedef {{ kind: 'line' | 'frame', x0: number, y0: number, x1: number, y1: number, glyph: string }} Corners */

/** A text of 1 to 64 characters, from the space to `~`, one a cell.
 * @typedef {{ kind: 'text', x: number, y: number, text: string }} Text */

/** Hides the drawop of this source and this number on its page, or shows it again.
 * @typedef {{ kind: 'delete' | 'restore', source: number, number: number }} Aimed */

/** @typedef {Corners | Text | Aimed} Drawing */

/** A drawop. Its operation is in words, as `line 0 0 4 0 *`; `drawingIn` gives what it draws, with types. Its source, its page and its number are its
 * name, which no other has.
 * @typedef {object} Drawop
 * @property {number} source
 * @property {string} page as `1/1`: its creator and its number
 * @property {number} number
 * @property {bigint} time
 * @property {string} operation */

const NUMBER = '(0|[1-9][0-9]*)', CORNERS = new RegExp(`^${NUMBER} ${NUMBER} ${NUMBER} ${NUMBER} ([!-~])$`), AIMED = new RegExp(`^${NUMBER} ${NUMBER}$`);
const TEXT = new RegExp(`^${NUMBER} ${NUMBER} "((?:[ !#-\\[\\]-~]|\\\\["\\\\]){1,64})"$`);

/** What an operation in words draws, or null where it is none.
 * @param {string} operation @returns {Drawing | null} */
export function drawingIn(operation) {
  const [kind = ''] = operation.split(' ', 1), rest = operation.slice(kind.length + 1);
  if (kind === 'line' || kind === 'frame') {
    const [, x0, y0, x1, y1, glyph] = CORNERS.exec(rest) ?? [];
    return glyph === undefined ? null : { kind, x0: Number(x0), y0: Number(y0), x1: Number(x1), y1: Number(y1), glyph };
  }
  if (kind === 'text') {
    const [, x, y, text] = TEXT.exec(rest) ?? [];
    return text === undefined ? null : { kind, x: Number(x), y: Number(y), text: text.replace(/\\(.)/g, '$1') };
  }
  if (kind !== 'delete' && kind !== 'restore') return null;
  const [, source, number] = AIMED.exec(rest) ?? [];
  return number === undefined ? null : { kind, source: Number(source), number: Number(number) };
}

/** A drawing in words.
 * @param {Drawing | string} drawing */
export function wordsOf(drawing) {
  if (typeof drawing === 'string') return drawing;
  if ('x0' in drawing) return `${drawing.kind} ${drawing.x0} ${drawing.y0} ${drawing.x1} ${drawing.y1} ${drawing.glyph}`;
  return 'text' in drawing ? `text ${drawing.x} ${drawing.y} "${drawing.text.replace(/["\\]/g, '\\$&')}"` : `${drawing.kind} ${drawing.source} ${drawing.number}`;
}

/** The number of each operation, and what its fields take besides the letters of a text. */
const KINDS = ['line', 'frame', 'text', 'delete', 'restore'], SIZES = { line: 9, frame: 9, text: 5, delete: 8, restore: 8 };

/** The bytes of a datagram's head, those of a drawop before the fields, and where the name, the time and the kind stand. */
const HEAD = 8, FIELDS = 33, SOURCE = 8, PAGE = 12, NUMBER_AT = 20, TIME = 24, KIND = 32;

/** Letters of a text that the first version can say at most; and the numbers of a drawing that gets others. */
const SHORT_TEXT = 40, DRAFT = 0xffffffff, MOST_COORDINATE = 4095;

/** The page of a text such as 7/1, or null.
 * @param {string} page @returns {[number, number] | null} */
export function pageIn(page) {
  const [, creator, number] = /^(0|[1-9]\d*)\/(0|[1-9]\d*)$/.exec(page) ?? [], both = [Number(creator), Number(number)];
  return both.every((each) => each <= DRAFT) ? /** @type {[number, number]} */ (both) : null;
}

/** The drawop of a drawing that has no name yet. Null where it is none, or is not written as a host writes it: a line says what is wrong.
 * @param {string} page @param {number | bigint} time @param {string} operation @returns {Uint8Array | null} */
export function draftOf(page, time, operation) {
  const drawing = drawingIn(operation), named = pageIn(page), at = BigInt(time);
  if (!drawing || !named || at < 0n || at >= 2n ** 64n || !isInRange(drawing)) return null;
  const length = drawing.kind === 'text' ? drawing.text.length : 0, bytes = new Uint8Array(FIELDS + SIZES[drawing.kind] + length), view = new DataView(bytes.buffer);
  bytes.set([0x57, 0x42, drawing.kind === 'restore' || length > SHORT_TEXT ? 2 : 1, 1]);
  view.setUint32(4, bytes.length - HEAD);
  [DRAFT, ...named, DRAFT].forEach((number, i) => view.setUint32(SOURCE + 4 * i, number));
  view.setBigUint64(TIME, at);
  bytes[KIND] = KINDS.indexOf(drawing.kind) + 1;
  writeFields(view, drawing);
  return bytes;
}

/** Whether a drawop may have these numbers, which are of a draft that may be aimed at anything else.
 * @param {Drawing} drawing */
function isInRange(drawing) {
  if ('text' in drawing) return Math.max(drawing.x, drawing.y) <= MOST_COORDINATE;
  if ('x0' in drawing) return Math.max(drawing.x0, drawing.y0, drawing.x1, drawing.y1) <= MOST_COORDINATE;
  const { source, number } = drawing;
  return source <= DRAFT && number >= 1 && number <= DRAFT && !(source === DRAFT && number === DRAFT);
}

/** @param {DataView} view @param {Drawing} drawing */
function writeFields(view, drawing) {
  if ('source' in drawing) [drawing.source, drawing.number].forEach((number, i) => view.setUint32(FIELDS + 4 * i, number));
  else if ('text' in drawing) {
    [drawing.x, drawing.y].forEach((number, i) => view.setUint16(FIELDS + 2 * i, number));
    view.setUint8(FIELDS + 4, drawing.text.length);
    for (let i = 0; i < drawing.text.length; i += 1) view.setUint8(FIELDS + 5 + i, drawing.text.charCodeAt(i));
  } else {
    [drawing.x0, drawing.y0, drawing.x1, drawing.y1].forEach((number, i) => view.setUint16(FIELDS + 2 * i, number));
    view.setUint8(FIELDS + 8, drawing.glyph.charCodeAt(0));
  }
}

/** The drawop of a datagram, or null where it has none. A host says whether its numbers are in their ranges.
 * @param {Uint8Array} datagram @returns {Drawop | null} */
export function drawopOf(datagram) {
  if (datagram.length < FIELDS + SIZES.text || datagram[0] !== 0x57 || datagram[1] !== 0x42 || datagram[3] !== 1) return null;
  const view = new DataView(datagram.buffer, datagram.byteOffset, datagram.byteLength), drawing = fieldsOf(view);
  if (!drawing) return null;
  return { source: view.getUint32(SOURCE), page: `${view.getUint32(PAGE)}/${view.getUint32(PAGE + 4)}`, number: view.getUint32(NUMBER_AT), time: view.getBigUint64(TIME),
    operation: wordsOf(drawing) };
}

/** @param {DataView} view @returns {Drawing | null} */
function fieldsOf(view) {
  const kind = /** @type {Drawing['kind'] | undefined} */ (KINDS[view.getUint8(KIND) - 1]);
  if (!kind || view.byteLength !== FIELDS + SIZES[kind] + (kind === 'text' ? view.getUint8(FIELDS + 4) : 0)) return null;
  const short = (/** @type {number} */ i) => view.getUint16(FIELDS + 2 * i);
  switch (kind) {
    case 'text': return { kind, x: short(0), y: short(1), text: lettersAt(view, FIELDS + 5) };
    case 'delete': case 'restore': return { kind, source: view.getUint32(FIELDS), number: view.getUint32(FIELDS + 4) };
    default: return { kind, x0: short(0), y0: short(1), x1: short(2), y1: short(3), glyph: lettersAt(view, FIELDS + 8) };
  }
}

/** @param {DataView} view @param {number} from */
function lettersAt(view, from) {
  let letters = '';
  for (let at = from; at < view.byteLength; at += 1) letters += String.fromCharCode(view.getUint8(at));
  return letters;
}
