/** A QR code of a text (ISO/IEC 18004): its bytes, with a correction that bears 15 per cent of damage, in the smallest size that has room. */

/** Sizes, and for each of them from the first on how many bytes correct a block, and how many blocks there are, at level M. */
const MOST_VERSION = 20, CORRECTING = [10, 16, 26, 18, 24, 16, 18, 22, 22, 26, 30, 22, 22, 24, 24, 28, 28, 26, 26, 26], BLOCKS = [1, 1, 1, 2, 2, 4, 4, 4, 5, 5, 5, 8, 9, 9, 10, 10, 11, 13, 14, 16];

/** Which modules of a mask are turned, by row and column. */
const MASKS = [(/** @type {number} */ y, /** @type {number} */ x) => (x + y) % 2 === 0, (/** @type {number} */ y) => y % 2 === 0, (/** @type {number} */ _, /** @type {number} */ x) => x % 3 === 0,
  (/** @type {number} */ y, /** @type {number} */ x) => (x + y) % 3 === 0, (/** @type {number} */ y, /** @type {number} */ x) => (Math.floor(x / 3) + Math.floor(y / 2)) % 2 === 0,
  (/** @type {number} */ y, /** @type {number} */ x) => ((x * y) % 2) + ((x * y) % 3) === 0, (/** @type {number} */ y, /** @type {number} */ x) => (((x * y) % 2) + ((x * y) % 3)) % 2 === 0,
  (/** @type {number} */ y, /** @type {number} */ x) => (((x + y) % 2) + ((x * y) % 3)) % 2 === 0];

/** Bytes of a size, those that correct among them.
 * @type {(version: number) => number} */
function bytesOf(version) {
  const aligned = Math.floor(version / 7) + 2, bits = (16 * version + 128) * version + 64 - (version > 1 ? (25 * aligned - 10) * aligned - 55 : 0) - (version > 6 ? 36 : 0);
  return Math.floor(bits / 8);
}

/** Bytes of a size that are free for a text.
 * @type {(version: number) => number} */
const roomOf = (version) => bytesOf(version) - CORRECTING[version - 1] * BLOCKS[version - 1];

/** The product of two bytes in the field of 256 by x^8 + x^4 + x^3 + x^2 + 1.
 * @type {(a: number, b: number) => number} */
function times(a, b) {
  let product = 0;
  for (let i = 7; i >= 0; i -= 1) product = ((product << 1) ^ ((product >> 7) * 0x11d)) ^ (((b >> i) & 1) * a);
  return product;
}

/** What is left of bytes, and as many zeros as correct them, after division by the product of (x - 2^i).
 * @type {(bytes: number[], many: number) => number[]} */
function correcting(bytes, many) {
  let divisor = [1];
  for (let i = 0, root = 1; i < many; i += 1, root = times(root, 2)) divisor = [...divisor, 0].map((part, k) => part ^ times(k ? divisor[k - 1] : 0, root));
  const left = Array(many).fill(0);
  for (const byte of bytes) {
    const factor = byte ^ left[0];
    left.push(0);
    left.shift();
    left.forEach((part, i) => { left[i] = part ^ times(divisor[i + 1], factor); });
  }
  return left;
}

/** What a code has, byte by byte: the text with its mode, its length and what fills it up, and what corrects each block, the blocks by turns.
 * @type {(text: Uint8Array, version: number) => number[]} */
function told(text, version) {
  const room = roomOf(version), counted = version < 10 ? 8 : 16;
  const bits = [[4, 4], [text.length, counted], ...[...text].map((byte) => [byte, 8])].map(([number, many]) => number.toString(2).padStart(many, '0')).join('');
  const whole = bits + '0'.repeat(Math.min(4, 8 * room - bits.length)), full = whole.padEnd(Math.ceil(whole.length / 8) * 8, '0');
  const bytes = (full.match(/.{8}/g) ?? []).map((byte) => parseInt(byte, 2));
  for (let i = 0; bytes.length < room; i += 1) bytes.push(i % 2 ? 0x11 : 0xec);
  const many = BLOCKS[version - 1], short = Math.floor(room / many), longer = room % many, starts = Array.from({ length: many + 1 }, (_, i) => i * short + Math.max(0, i - (many - longer)));
  const blocks = starts.slice(0, many).map((start, i) => bytes.slice(start, starts[i + 1])), checks = blocks.map((block) => correcting(block, CORRECTING[version - 1]));
  const byTurns = (/** @type {number[][]} */ lists) => Array.from({ length: Math.max(...lists.map(({ length }) => length)) }, (_, i) => lists.flatMap((list) => (i < list.length ? [list[i]] : []))).flat();
  return [...byTurns(blocks), ...byTurns(checks)];
}

/** The modules of a code, row by row, true where it is dark; and those that carry nothing of the text. */
class Code {
  /** @param {number} version */
  constructor(version) {
    this.version = version;
    this.size = 17 + 4 * version;
    this.dark = Array.from({ length: this.size }, () => Array(this.size).fill(false));
    this.fixed = Array.from({ length: this.size }, () => Array(this.size).fill(false));
    this.drawFixed();
  }

  /** @param {number} x @param {number} y @param {boolean} isDark */
  fix(x, y, isDark) {
    if (x < 0 || y < 0 || x >= this.size || y >= this.size) return;
    this.dark[y][x] = isDark;
    this.fixed[y][x] = true;
  }

  /** Squares within squares about a module.
   * @param {number} x @param {number} y @param {number} far @param {number} light the ring that is light, and all beyond the last dark one */
  square(x, y, far, light) {
    for (let dy = -far; dy <= far; dy += 1) {
      for (let dx = -far; dx <= far; dx += 1) {
        const ring = Math.max(Math.abs(dx), Math.abs(dy));
        this.fix(x + dx, y + dy, ring !== light && ring !== 4);
      }
    }
  }

  /** What says where the code is and how large: the three corners, the lines between them, the small squares, and the version. */
  drawFixed() {
    const { size, version } = this, many = version > 1 ? Math.floor(version / 7) + 2 : 0, step = Math.ceil((size - 13) / (2 * many - 2)) * 2;
    for (let i = 0; i < size; i += 1) {
      this.fix(6, i, i % 2 === 0);
      this.fix(i, 6, i % 2 === 0);
    }
    const places = Array.from({ length: many }, (_, i) => (i ? size - 7 - (many - 1 - i) * step : 6));
    for (const x of places) for (const y of places) if (!(x === 6 && y === 6) && !(x === 6 && y === size - 7) && !(x === size - 7 && y === 6)) this.square(x, y, 2, 1);
    for (const [x, y] of [[3, 3], [size - 4, 3], [3, size - 4]]) this.square(x, y, 4, 2);
    this.drawFormat(0);
    if (version < 7) return;
    const bits = (version << 12) | remainder(version, 12, 0x1f25);
    for (let i = 0; i < 18; i += 1) for (const [x, y] of [[size - 11 + (i % 3), Math.floor(i / 3)], [Math.floor(i / 3), size - 11 + (i % 3)]]) this.fix(x, y, Boolean((bits >> i) & 1));
  }

  /** The level M, whose number is 0, and the mask, twice.
   * @param {number} mask */
  drawFormat(mask) {
    const { size } = this, bits = ((mask << 10) | remainder(mask, 10, 0x537)) ^ 0x5412, bit = (/** @type {number} */ i) => Boolean((bits >> i) & 1);
    for (let i = 0; i < 15; i += 1) {
      const [x, y] = i < 6 ? [8, i] : i < 8 ? [8, i + 1] : i === 8 ? [7, 8] : [14 - i, 8];
      this.fix(x, y, bit(i));
      if (i < 8) this.fix(size - 1 - i, 8, bit(i));
      else this.fix(8, size - 15 + i, bit(i));
    }
    this.fix(8, size - 8, true);
  }

  /** Fills in bytes, in pairs of columns from the right, up and down by turns; bits that are left over are light.
   * @param {number[]} bytes */
  fill(bytes) {
    const { size, fixed, dark } = this;
    let at = 0;
    for (let right = size - 1, isUp = true; right > 0; right -= right === 8 ? 3 : 2, isUp = !isUp) {
      for (let i = 0; i < size; i += 1) {
        const y = isUp ? size - 1 - i : i;
        for (const x of [right, right - 1]) {
          if (fixed[y][x]) continue;
          dark[y][x] = Boolean(((bytes[at >> 3] ?? 0) >> (7 - (at & 7))) & 1);
          at += 1;
        }
      }
    }
  }

  /** The same under a mask.
   * @param {number} mask @returns {boolean[][]} */
  masked(mask) {
    this.drawFormat(mask);
    return this.dark.map((row, y) => row.map((is, x) => (this.fixed[y][x] ? is : is !== MASKS[mask](y, x))));
  }
}

/** What is left of a number with as many zeros behind it, after division in the field of two.
 * @type {(number: number, zeros: number, divisor: number) => number} */
function remainder(number, zeros, divisor) {
  let left = number;
  for (let i = 0; i < zeros; i += 1) left = (left << 1) ^ ((left >> (zeros - 1)) * divisor);
  return left;
}

/** How hard rows are to read: five alike and more, and what looks like a corner.
 * @type {(rows: boolean[][]) => number} */
const faultsOf = (rows) => rows.map((row) => row.map(Number).join('')).reduce((sum, row) => sum + (row.match(/0{5,}|1{5,}/g) ?? []).reduce((faults, run) => faults + run.length - 2, 0)
  + 40 * ((row.match(/(?=10111010000)/g) ?? []).length + (row.match(/(?=00001011101)/g) ?? []).length), 0);

/** How hard a code is to read, by the four rules of the standard.
 * @type {(rows: boolean[][]) => number} */
function hardness(rows) {
  const columns = rows.map((_, x) => rows.map((row) => row[x])), size = rows.length, dark = rows.flat().filter(Boolean).length;
  let blocks = 0;
  for (let y = 1; y < size; y += 1) for (let x = 1; x < size; x += 1) if (rows[y][x] === rows[y - 1][x] && rows[y][x] === rows[y][x - 1] && rows[y][x] === rows[y - 1][x - 1]) blocks += 1;
  return faultsOf(rows) + faultsOf(columns) + 3 * blocks + 10 * Math.floor(Math.abs((20 * dark) / (size * size) - 10));
}

/** The modules of a text's code, row by row, true where it is dark. Null if the text is too long.
 * @param {string} text @param {number} [mask] if not the one that is read best @returns {boolean[][] | null} */
export function scancodeOf(text, mask) {
  const bytes = new TextEncoder().encode(text), version = Array.from({ length: MOST_VERSION }, (_, i) => i + 1).find((each) => bytes.length + (each < 10 ? 2 : 3) <= roomOf(each));
  if (!version) return null;
  const code = new Code(version);
  code.fill(told(bytes, version));
  const all = (mask === undefined ? [...MASKS.keys()] : [mask]).map((each) => code.masked(each));
  return all.reduce((best, each) => (hardness(each) < hardness(best) ? each : best));
}

/** The path of a code, a unit a module, with the four light modules about it that readers need.
 * @type {(rows: boolean[][]) => { way: string, size: number }} */
export const pathOfCode = (rows) => ({ size: rows.length + 8, way: rows.flatMap((row, y) => row.map((is, x) => (is ? `M${x + 4} ${y + 4}h1v1h-1z` : ''))).join('') });
