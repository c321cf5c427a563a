/** The points of each glyph at one size, so that a tile is put together from numbers: thousands of letters cost a millisecond. */

/** The glyphs that a drawing can have, but for the space. */
const FIRST = 0x21, LAST = 0x7e;

/** The least part of a point that is inked, from 0 to 255. */
const LEAST = 8;

export class Glyphs {
  /** @param {string} font @param {number} size of the font @param {number} wide and @param {number} high points of a cell, whole numbers */
  constructor(font, size, wide, high) {
    this.font = font;
    this.wide = wide;
    this.high = high;
    /** For each glyph the columns, rows and inks of its points, one after another.
     * @type {Uint8Array[]} */
    this.points = [];
    if (wide) this.draw(size);
  }

  /** @param {number} size */
  draw(size) {
    const { font, wide, high } = this, canvas = document.createElement('canvas');
    const brush = /** @type {CanvasRenderingContext2D} */ (canvas.getContext('2d', { willReadFrequently: true }));
    canvas.width = wide * (LAST - FIRST + 1);
    canvas.height = high;
    brush.font = `${size}px ${font}`;
    brush.textAlign = 'center';
    brush.textBaseline = 'middle';
    for (let code = FIRST; code <= LAST; code += 1) brush.fillText(String.fromCharCode(code), (code - FIRST + 0.5) * wide, high / 2);
    const { data } = brush.getImageData(0, 0, canvas.width, high);
    this.points = Array.from({ length: LAST - FIRST + 1 }, (_, i) => this.inked(data, i * wide, canvas.width));
  }

  /** The points of a glyph that begins at a column of the strip.
   * @param {Uint8ClampedArray} data @param {number} left @param {number} width */
  inked(data, left, width) {
    /** @type {number[]} */
    const points = [];
    for (let i = 0; i < this.wide * this.high; i += 1) {
      const [x, y] = [i % this.wide, Math.floor(i / this.wide)], ink = data[4 * (y * width + left + x) + 3];
      if (ink >= LEAST) points.push(x, y, ink);
    }
    return Uint8Array.from(points);
  }

  /** Puts a glyph into a picture, its corner at a column and a row.
   * @param {Uint32Array} picture @param {number} width of the picture @param {number} left @param {number} top @param {number} code
   * @param {number} colour blue, green and red, as numbers of a picture have them */
  put(picture, width, left, top, code, colour) {
    const points = this.points[code - FIRST] ?? [];
    for (let i = 0; i < points.length; i += 3) picture[(top + points[i + 1]) * width + left + points[i]] = (points[i + 2] << 24) | colour;
  }
}

/** A colour `#rrggbb` as a picture has it, without its ink.
 * @type {(colour: string) => number} */
export const numberOf = (colour) => parseInt(colour.slice(5, 7) + colour.slice(3, 5) + colour.slice(1, 3), 16);
