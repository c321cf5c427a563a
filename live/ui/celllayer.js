/** The page by its characters, as the host paints them: pictures of its tiles, and over them what is in hand. A tile is painted once for
 * each size and change of its cells, so a move of the view copies pictures and looks at no cell. */
import { SIDE, clamp, cover, nameOf } from './cells.js';
import { Glyphs, numberOf } from './glyphs.js';
import { TILE, tileKey } from './layout.js';

/** @typedef {import('./types.js').Shape} Shape */
/** @typedef {import('./types.js').Drawing} Drawing */
/** @typedef {import('./cells.js').Cell} Cell */
/** The picture of a tile, or null where no cell of it has a glyph; and for what it was painted.
 * @typedef {{ canvas: HTMLCanvasElement | null, version: number, wide: number, look: number }} Picture */

/** Milliseconds for which what others drew is marked, and of these those in which the mark fades. */
const FRESH = 1200, FADING = 700;

/** Milliseconds of a frame in which tiles may be laid out and painted, and the pictures that are kept. */
const BUDGET = 6, MOST_PICTURES = 400;

/** Milliseconds for which the cells keep their size before tiles are painted in it: until then their pictures are stretched. */
const SETTLED = 90;

export class CellLayer {
  /** @param {import('./painter.js').Painter} painter */
  constructor(painter) {
    this.painter = painter;
    this.fadeTimer = 0;
    /** What others have just drawn, and until when it is marked.
     * @type {Map<string, { drawing: Drawing, until: number }>} */
    this.fresh = new Map();
    /** @type {Map<number, Picture>} */
    this.pictures = new Map();
    /** The glyphs of the size in which tiles are painted: at first of none. */
    this.glyphs = new Glyphs('', 0, 0, 0);
    this.sharpTimer = 0;
  }

  get parts() {
    return this.painter.parts;
  }

  /** What someone has just drawn is marked for a moment.
   * @param {Drawing} drawing */
  mark(drawing) {
    const name = nameOf(drawing);
    this.fresh.set(name, { drawing, until: performance.now() + FRESH });
    setTimeout(() => { this.fresh.delete(name); this.painter.soon(); }, FRESH);
  }

  /** @param {number} now */
  paint(now) {
    const { painter, parts: { hand } } = this;
    if (hand.pointer) this.paintDots(hand.pointer);
    this.paintFresh(now);
    this.paintTiles();
    this.paintGhosts();
    this.paintPointer();
    if (this.fresh.size && !painter.still.matches) this.fadeTimer ||= setTimeout(() => { this.fadeTimer = 0; painter.soon(); }, 100);
  }

  // ---- tiles

  /** Copies the pictures of the tiles in view. Of those that have none of this size, as many are painted as a frame has time for;
   * the others stand as they were, larger or smaller, until the next frame. */
  paintTiles() {
    const { painter: { brush }, parts: { view } } = this, end = performance.now() + BUDGET, side = { wide: TILE * view.wide, high: TILE * view.high };
    this.sharpen();
    brush.imageSmoothingEnabled = false;
    for (let y = Math.max(0, Math.floor(view.top / TILE)) * TILE; y <= view.top + view.rows && y < SIDE; y += TILE) {
      for (let x = Math.max(0, Math.floor(view.left / TILE)) * TILE; x <= view.left + view.columns && x < SIDE; x += TILE) {
        const canvas = this.pictureOf(x, y, end)?.canvas;
        if (canvas) brush.drawImage(canvas, view.pixelX(x), view.pixelY(y), side.wide, side.high);
      }
    }
  }

  /** @param {number} x @param {number} y @param {number} end until when a tile may be begun */
  pictureOf(x, y, end) {
    const { painter: { look }, parts: { layout }, glyphs: { wide } } = this, key = tileKey(x, y), found = this.pictures.get(key), tile = layout.tiles.get(key);
    if (tile?.isLaid && found?.version === tile.version && found.wide === wide && found.look === look) return found;
    const laid = performance.now() < end ? layout.tileAt(x, y, end) : null;
    if (!laid?.isLaid) {
      this.painter.soon();
      return found ?? null;
    }
    const picture = { canvas: this.paintTile(laid), version: laid.version, wide, look };
    this.pictures.delete(key);
    this.pictures.set(key, picture);
    if (this.pictures.size > MOST_PICTURES) this.pictures.delete(/** @type {number} */ (this.pictures.keys().next().value));
    return picture;
  }

  /** All pictures are out of date: another page is shown. */
  forget() {
    this.pictures.clear();
  }

  /** @param {ReturnType<import('./layout.js').Layout['tileAt']>} tile */
  paintTile(tile) {
    const { painter, parts: { layout }, glyphs } = this, [width, height] = [TILE * glyphs.wide, TILE * glyphs.high];
    const canvas = document.createElement('canvas'), image = new ImageData(width, height), picture = new Uint32Array(image.data.buffer);
    /** @type {Map<number, number>} */
    const inks = new Map();
    layout.eachGlyph(tile, (x, y, code, source) => {
      const ink = inks.get(source) ?? numberOf(source < 0 ? painter.colours.ink : painter.tintOf(source));
      inks.set(source, ink);
      glyphs.put(picture, width, x * glyphs.wide, y * glyphs.high, code, ink);
    });
    if (!inks.size) return null;
    Object.assign(canvas, { width, height }).getContext('2d')?.putImageData(image, 0, 0);
    return canvas;
  }

  /** Makes the glyphs of the size in view, once it stays so for a moment. */
  sharpen() {
    const { painter, parts: { view } } = this, ratio = devicePixelRatio, wide = Math.round(view.wide * ratio), left = view.sizedAt + SETTLED - performance.now();
    if (this.glyphs.wide === wide && this.glyphs.font === painter.font) return;
    if (this.glyphs.wide && left > 0) this.sharpTimer ||= setTimeout(() => { this.sharpTimer = 0; painter.soon(); }, left);
    else this.glyphs = new Glyphs(painter.font, view.size * ratio, wide, Math.round(view.high * ratio));
  }

  // ---- cells

  /** @param {number} x @param {number} y @param {string} colour */
  fillCell(x, y, colour) {
    const { painter: { brush }, parts: { view } } = this;
    brush.fillStyle = colour;
    brush.fillRect(view.pixelX(x), view.pixelY(y), view.wide, view.high);
  }

  /** @param {number} x @param {number} y @param {string} glyph @param {string} colour */
  putGlyph(x, y, glyph, colour) {
    if (glyph === ' ') return;
    const { painter: { brush }, parts: { view } } = this;
    brush.fillStyle = colour;
    brush.fillText(glyph, view.pixelX(x) + view.wide / 2, view.pixelY(y) + view.high / 2);
  }

  /** How many cells it took.
   * @param {Shape} shape @param {string} colour @param {string} [ground] */
  paintShape(shape, colour, ground) {
    let cells = 0;
    cover(shape, (x, y, glyph) => {
      cells += 1;
      if (ground) this.fillCell(x, y, ground);
      this.putGlyph(x, y, glyph, colour);
    }, this.parts.view.box());
    return cells;
  }

  /** Quiet dots in the cells about the pointer.
   * @param {Cell} centre */
  paintDots(centre) {
    const { painter: { brush, colours }, parts: { view } } = this;
    brush.fillStyle = colours.dot;
    for (let i = 0; i < 169; i += 1) {
      const [dx, dy] = [(i % 13) - 6, Math.floor(i / 13) - 6];
      brush.globalAlpha = Math.max(0, 0.9 - Math.hypot(dx, dy) / 7);
      brush.fillRect(view.pixelX(centre.x + dx) + view.wide / 2 - 0.5, view.pixelY(centre.y + dy) + view.high / 2 - 0.5, 1.5, 1.5);
    }
    brush.globalAlpha = 1;
  }

  /** @param {number} now */
  paintFresh(now) {
    const { brush, colours, still } = this.painter, box = this.parts.view.box();
    for (const { drawing, until } of this.fresh.values()) {
      brush.globalAlpha = still.matches ? 1 : clamp((until - now) / FADING, 0, 1);
      cover(drawing, (x, y) => this.fillCell(x, y, colours.soft), box);
    }
    brush.globalAlpha = 1;
  }

  /** What is selected; what a click would hide or show; what is let go and not yet on the board; and what is begun. */
  paintGhosts() {
    const { brush, colours } = this.painter, { hand, layout, session } = this.parts, hidden = hand.tool === 'restore' ? layout.hiddenAt(hand.at()) : undefined;
    hand.selected().forEach((drawing) => this.paintShape(drawing, colours.accent, colours.soft));
    brush.globalAlpha = 0.6;
    if (hand.tool === 'restore') session.board.hidden.forEach((drawing) => this.paintShape(drawing, colours.quiet));
    brush.globalAlpha = 1;
    hand.doomed().forEach((drawing) => this.paintShape(drawing, colours.bad, colours['bad-soft']));
    if (hidden) this.paintShape(hidden, colours.accent, colours.soft);
    session.waiting.forEach(({ ghost }) => this.paintShape(ghost, colours.accent));
    hand.ghosts().forEach((shape) => this.paintShape(shape, colours.accent, colours.soft));
    const box = hand.box();
    if (box) this.outline(box.from, box.to, colours.accent, [4, 3]);
  }

  /** A frame about the cells from one to another.
   * @param {Cell} from @param {Cell} to @param {string} colour @param {number[]} [dashes] */
  outline(from, to, colour, dashes = []) {
    const { painter: { brush }, parts: { view } } = this, [x0, x1] = [Math.min(from.x, to.x), Math.max(from.x, to.x)];
    const [y0, y1] = [Math.min(from.y, to.y), Math.max(from.y, to.y)];
    brush.strokeStyle = colour;
    brush.setLineDash(dashes);
    brush.strokeRect(view.pixelX(x0) + 0.5, view.pixelY(y0) + 0.5, (x1 - x0 + 1) * view.wide - 1, (y1 - y0 + 1) * view.high - 1);
    brush.setLineDash([]);
  }

  paintPointer() {
    const { brush, colours } = this.painter, { hand } = this.parts, cell = hand.cursor.on ? hand.cursor : hand.pointer;
    if (!cell) return;
    brush.lineWidth = hand.cursor.on ? 2 : 1;
    this.outline(cell, cell, hand.cursor.on ? colours.accent : colours.quiet);
    brush.lineWidth = 1;
  }
}
