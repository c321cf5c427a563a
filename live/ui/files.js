/** What is saved and opened: a page, all pages, the record; a text as drawings. */
import { insert } from './clipboard.js';
import { $, tell } from './dom.js';
import { extentOf, htmlOf, runsOf, svgOf, textOf } from './exports.js';
import { RULED, ruled } from './ground.js';
import { itemsOf } from './inkitems.js';
import { InkPaint, boxAboutAll, inOrder } from './inkpaint.js';
import { CELL_WIDE } from './inksigns.js';
import { svgOfInk } from './inksvg.js';
import { LANGUAGE, wording } from './language.js';
import { Printing } from './printing.js';

/** @typedef {import('./types.js').Board} Board */
/** @typedef {import('./whiteboard.js').Whiteboard} Whiteboard */

/** Points of a cell in a picture, and the points of a side that browsers can paint. */
const WIDE = 9, HIGH = 17, MOST_SIDE = 16_000, MOST_AREA = 64_000_000;

/** Of a picture of ink: points of a cell, the points of a side at most, and those about it. */
const INK = { wide: 20, most: 8_000, about: 20 };

/** Bytes of a text that is opened. */
const MOST_BYTES = 1_000_000;

export class Files {
  /** @param {Whiteboard} board */
  constructor(board) {
    this.board = board;
    /** What is saved and printed is painted by day. */
    this.day = new InkPaint(board.painter.byDay);
    this.printing = new Printing(this);
    /** @type {Record<string, () => void>} */
    const acts = { 'save-text': () => this.save('txt', 'text/plain', textOf(this.shown)),
      'save-svg': () => this.save('svg', 'image/svg+xml', this.svg(this.shown)), 'save-png': () => this.savePng(),
      'save-html': () => this.saveAll(), 'save-record': () => this.saveRecord(), 'open-text': () => $('opened').click() };
    document.querySelectorAll('#saving button').forEach((button) => button.addEventListener('click', () => $('files').close()));
    for (const [id, act] of Object.entries(acts)) $(id).addEventListener('click', act);
    $('save-record').hidden = !board.session.member.record;
    $('opened').addEventListener('change', () => this.open($('opened').files[0]));
  }

  get shown() {
    return this.board.session.board;
  }

  /** @param {string} page */
  titleOf(page) {
    return this.board.session.titleOf(page);
  }

  /** A page as SVG, by day.
   * @param {Board} board */
  svg(board) {
    const title = this.titleOf(board.page);
    if (this.board.painter.isInk) return svgOfInk(itemsOf(board.drawops), this.day, title, this.board.notes.paperOf(board.page));
    return svgOf(board, (source) => this.tintOf(source), this.day.shades.colours.paper, title);
  }

  /** The colour of a cell on white.
   * @param {number} source below 0 for none */
  tintOf(source) {
    const { colours, tintOf } = this.day.shades;
    return source < 0 ? colours.ink : tintOf(source);
  }

  /** Hands a file to the user.
   * @param {string} ending @param {string} kind @param {BlobPart} content @param {string} [name] */
  save(ending, kind, content, name = `page-${this.shown.page.replace('/', '-')}`) {
    const address = URL.createObjectURL(new Blob([content], { type: kind }));
    Object.assign(document.createElement('a'), { href: address, download: `${name}.${ending}` }).click();
    setTimeout(() => URL.revokeObjectURL(address), 60_000);
  }

  /** A canvas with the paper's colour, which is the screen's if no other is given.
   * @param {HTMLCanvasElement} canvas @param {number} width @param {number} height @param {string} [paper] */
  sheetOf(canvas, width, height, paper = this.board.painter.colours.paper) {
    Object.assign(canvas, { width, height });
    const brush = /** @type {CanvasRenderingContext2D} */ (canvas.getContext('2d'));
    brush.fillStyle = paper;
    brush.fillRect(0, 0, width, height);
    return brush;
  }

  /** Paints a page as ink in the middle of a canvas, as large as it fits, up to a number of points a cell.
   * @param {CanvasRenderingContext2D} brush @param {Board} board @param {number} most @param {InkPaint} [paints] */
  paintInk(brush, board, most, paints = this.board.painter.ink.paints) {
    const items = itemsOf(board.drawops), box = boxAboutAll(items), { width, height } = brush.canvas;
    if (!box) return;
    const { x0, y0, x1, y1 } = box, scale = Math.min(most / CELL_WIDE, (width - INK.about) / (x1 - x0), (height - INK.about) / (y1 - y0));
    brush.setTransform(scale, 0, 0, scale, width / 2 - ((x0 + x1) / 2) * scale, height / 2 - ((y0 + y1) / 2) * scale);
    if (paints === this.day) this.rule(brush, board.page, scale);
    inOrder(items).forEach((item) => paints.paint(brush, item, { wide: scale * CELL_WIDE }));
  }

  /** Rules a picture as the paper of its page is.
   * @param {CanvasRenderingContext2D} brush @param {string} page @param {number} scale */
  rule(brush, page, scale) {
    const { e, f } = brush.getTransform(), { width, height } = brush.canvas;
    Object.assign(brush, { strokeStyle: RULED.colour, lineWidth: RULED.width });
    brush.stroke(new Path2D(ruled(this.board.notes.paperOf(page), { x0: -e / scale, y0: -f / scale, x1: (width - e) / scale, y1: (height - f) / scale })));
  }

  savePng() {
    const canvas = document.createElement('canvas');
    if (this.board.painter.isInk) this.pngOfInk(canvas);
    else if (!this.pngOfCells(canvas)) return tell(wording('pngTooLarge'));
    canvas.toBlob((blob) => blob && this.save('png', 'image/png', blob));
    return undefined;
  }

  /** @param {HTMLCanvasElement} canvas */
  pngOfInk(canvas) {
    const { x0, y0, x1, y1 } = boxAboutAll(this.board.ink.items) ?? { x0: 0, y0: 0, x1: 10 * CELL_WIDE, y1: 8 * CELL_WIDE };
    const scale = Math.min(INK.wide / CELL_WIDE, INK.most / (x1 - x0), INK.most / (y1 - y0)), side = (/** @type {number} */ units) => Math.ceil(units * scale) + 2 * INK.about;
    this.paintInk(this.sheetOf(canvas, side(x1 - x0), side(y1 - y0), this.day.shades.colours.paper), this.shown, INK.wide, this.day);
  }

  /** Whether the page was not too large.
   * @param {HTMLCanvasElement} canvas */
  pngOfCells(canvas) {
    const extent = extentOf(this.shown), [width, height] = [extent.columns * WIDE, extent.rows * HIGH], { painter, layout } = this.board;
    if (Math.max(width, height) > MOST_SIDE || width * height > MOST_AREA) return false;
    const brush = this.sheetOf(canvas, width, height, this.day.shades.colours.paper);
    painter.setFont(brush, 15);
    for (const { x, y, source, text } of runsOf(layout, extent)) {
      brush.fillStyle = this.tintOf(source);
      [...text].forEach((glyph, i) => brush.fillText(glyph, (x - extent.left + i + 0.5) * WIDE, (y - extent.top + 0.5) * HIGH));
    }
    return true;
  }

  /** The pages that can be read, as they are shown now, but for the reserved one. */
  async boards() {
    const { session } = this.board, { member } = session;
    const boards = await Promise.all(session.leaves().map(({ page }) => (page === this.shown.page ? this.shown : member.read?.(page) ?? null)));
    return /** @type {Board[]} */ (boards.filter((board) => board !== null));
  }

  async saveAll() {
    const boards = await this.boards();
    this.save('html', 'text/html', htmlOf(boards.map((board) => ({ title: this.titleOf(board.page), svg: this.svg(board) })), LANGUAGE), 'board');
  }

  async saveRecord() {
    const record = await this.board.session.member.record?.();
    if (record == null) tell(wording('noRecord'));
    else this.save('record', 'text/plain', record, `member-${this.board.session.hello.me}`);
  }

  /** Draws the lines of a file.
   * @param {File | undefined} file */
  async open(file) {
    $('opened').value = '';
    if (!file) return;
    if (file.size > MOST_BYTES) tell(wording('textTooLarge', { most: MOST_BYTES / 1000 }));
    else if (/^(image|audio|video)\//.test(file.type)) tell(wording('noPictures'));
    else insert(this.board.hand, await file.text(), this.board.place());
  }
}
