/** What lies on top in each cell of the page, by tiles. A tile is laid out when it is looked at: from the newest drawing down, until it is
 * full, and a few milliseconds at a time. So a change costs what it touches of the tiles that are laid out, and no drawing is gone over
 * beyond them. */
import { SIDE, cover, touches } from './cells.js';

/** @typedef {import('./types.js').Drawing} Drawing */
/** @typedef {import('./types.js').Board} Board */
/** @typedef {import('./session.js').Taken} Taken */
/** @typedef {import('./cells.js').Cell} Cell */
/** @typedef {import('./cells.js').Box} Box */

/** The columns of a tile, which are also its rows. */
export const TILE = 32;

/** Tiles beside one another on a page. */
const ACROSS = SIDE / TILE;

/** The part of a page that the host paints itself. */
export const PAINTED = { columns: 200, rows: 100 };

/** Tiles that stay laid out, and drawings of one change that are looked at one by one: for more, all tiles are laid out anew. */
const MOST_TILES = 600, MANY = 64;

/** Milliseconds for which a tile is laid out when it is asked what is in a cell, and drawings between two looks at the clock. */
const PATIENCE = 4, AT_ONCE = 32;

const SPACE = 0x20;

/** The key of the tile of a cell.
 * @type {(x: number, y: number) => number} */
export const tileKey = (x, y) => Math.floor(y / TILE) * ACROSS + Math.floor(x / TILE);

/** The place of a cell in its tile.
 * @type {(x: number, y: number) => number} */
const placeOf = (x, y) => (y % TILE) * TILE + (x % TILE);

let stamps = 0;

/** A number that no version has had.
 * @type {() => number} */
const stamp = () => (stamps += 1);

/** For each cell of a tile the drawing on top, and its glyph. A tile whose cells change has another version. */
class Tile {
  /** @param {number} left @param {number} top its first column and row */
  constructor(left, top) {
    /** @type {Box} */
    this.box = { x0: left, y0: top, x1: left + TILE - 1, y1: top + TILE - 1 };
    /** @type {(Drawing | undefined)[]} */
    this.tops = [];
    this.marks = new Uint8Array(TILE * TILE);
    this.version = stamp();
    /** How many drawings, the oldest, are still to be laid out under the others; null where it is to be begun.
     * @type {number | null} */
    this.left = null;
    this.free = 0;
  }

  get isLaid() {
    return this.left === 0;
  }

  /** Lays it out, from the newest drawing down to where it is full; or goes on with that.
   * @param {Drawing[]} drawops in the order of painting @param {number} end a time, when it stops until the next call */
  lay(drawops, end) {
    const { tops, marks, box } = this;
    let left = this.left ?? this.begin(drawops.length);
    for (; left > 0 && this.free > 0 && (left % AT_ONCE || performance.now() < end); left -= 1) {
      const drawing = drawops[left - 1];
      cover(drawing, (x, y, mark) => {
        const place = placeOf(x, y);
        if (marks[place]) return;
        [tops[place], marks[place]] = [drawing, mark.charCodeAt(0)];
        this.free -= 1;
      }, box);
    }
    this.left = this.free > 0 ? left : 0;
  }

  /** @param {number} many drawings */
  begin(many) {
    this.free = TILE * TILE;
    this.tops.length = 0;
    this.marks.fill(0);
    return many;
  }

  /** Puts a drawing on top.
   * @param {Drawing} drawing */
  put(drawing) {
    if (!touches(drawing, this.box)) return;
    this.version = stamp();
    cover(drawing, (x, y, mark) => { [this.tops[placeOf(x, y)], this.marks[placeOf(x, y)]] = [drawing, mark.charCodeAt(0)]; }, this.box);
  }

  /** Its cells are others: it is laid out anew when it is looked at. */
  spoil() {
    this.left = null;
    this.version = stamp();
  }
}

export class Layout {
  /** Those that were looked at, the latest last.
   * @type {Map<number, Tile>} */
  tiles = new Map();

  /** @type {Drawing[]} */
  drawops = [];

  /** @type {Drawing[]} */
  hidden = [];

  /** @type {string[]} */
  rows = [];

  /** Takes what the page shows now, and what became of it. Tiles without a change stay as they are.
   * @param {Board} board @param {Taken} taken */
  take({ drawops, hidden, rows }, { isTurned, gone, added }) {
    const areLast = added.every((drawing, i) => drawops[drawops.length - added.length + i] === drawing), before = this.rows;
    Object.assign(this, { drawops, hidden, rows });
    if (isTurned) this.tiles.clear();
    else if (gone.length + added.length > MANY) this.tiles.forEach((tile) => tile.spoil());
    else this.tiles.forEach((tile) => change(tile, areLast ? gone : [...gone, ...added], areLast ? added : []));
    this.takeRows(before);
  }

  /** If the rows that the host painted changed, the tiles have another version.
   * @param {string[]} before */
  takeRows(before) {
    for (let y = 0; y < Math.max(before.length, this.rows.length); y += 1) {
      const was = before[y] ?? '', is = this.rows[y] ?? '';
      if (was === is) continue;
      for (let x = 0; x < Math.max(was.length, is.length); x += TILE) {
        const tile = this.tiles.get(tileKey(x, y));
        if (tile && was.slice(x, x + TILE) !== is.slice(x, x + TILE)) tile.version = stamp();
      }
    }
  }

  /** The tile of a cell, laid out as far as there is time.
   * @param {number} x @param {number} y @param {number} [end] the time when it stops, if it is not done @returns {Tile} */
  tileAt(x, y, end = Infinity) {
    const key = tileKey(x, y), tile = this.tiles.get(key) ?? new Tile(x - (x % TILE), y - (y % TILE));
    if (!this.tiles.has(key) && this.tiles.size >= MOST_TILES) this.tiles.delete(/** @type {number} */ (this.tiles.keys().next().value));
    this.tiles.set(key, tile);
    if (!tile.isLaid) tile.lay(this.drawops, end);
    return tile;
  }

  /** The drawing on top in a cell.
   * @param {Cell | null} [cell] @returns {Drawing | undefined} */
  drawingAt(cell) {
    return cell ? this.tileAt(cell.x, cell.y, performance.now() + PATIENCE).tops[placeOf(cell.x, cell.y)] : undefined;
  }

  /** The glyph of a cell, by this page's own painting.
   * @param {number} x @param {number} y */
  markAt(x, y) {
    const code = this.tileAt(x, y).marks[placeOf(x, y)];
    return code ? String.fromCharCode(code) : ' ';
  }

  /** The glyph of a cell: the host's own, as far as it paints.
   * @param {number} x @param {number} y */
  glyphAt(x, y) {
    return x < PAINTED.columns && y < PAINTED.rows ? this.rows[y]?.[x] ?? ' ' : this.markAt(x, y);
  }

  /** Shows each glyph of a tile: its column and row there, its code, and its source, or -1 where nobody is known to have drawn it.
   * @param {Tile} tile @param {(x: number, y: number, code: number, source: number) => void} see */
  eachGlyph({ box: { x0, y0 }, tops, marks }, see) {
    for (let i = 0; i < TILE * TILE; i += 1) {
      const [x, y] = [i % TILE, Math.floor(i / TILE)], isPainted = x0 + x < PAINTED.columns && y0 + y < PAINTED.rows;
      const code = isPainted ? this.rows[y0 + y]?.charCodeAt(x0 + x) || SPACE : marks[i] || SPACE;
      if (code !== SPACE) see(x, y, code, tops[i]?.source ?? -1);
    }
  }

  /** The last hidden drawing that covers a cell.
   * @param {Cell | null} [cell] */
  hiddenAt(cell) {
    return cell ? this.hidden.findLast((drawing) => touches(drawing, { x0: cell.x, y0: cell.y, x1: cell.x, y1: cell.y })) : undefined;
  }
}

/** A tile after a change: what is on top of all others is put there, and of the rest one that touches it has it laid out anew. So has any
 * of the rest while it is not laid out, since the drawings that are left are others.
 * @type {(tile: Tile, others: Drawing[], last: Drawing[]) => void} */
function change(tile, others, last) {
  if (others.length && (!tile.isLaid || others.some((drawing) => touches(drawing, tile.box)))) tile.spoil();
  else if (tile.left !== null) last.forEach((drawing) => tile.put(drawing));
}
