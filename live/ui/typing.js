/** Letters are typed on the sheet, where they will stand: on cells one line or many of ASCII, and as ink letters of all languages, by themselves
 * or in a shape. */
import { SIDE } from './cells.js';
import { $, tell } from './dom.js';
import { boxOfLetters, fontOf, isFromRight, linesOf, standOf, widthOf } from './inkfonts.js';
import { isClosed } from './inkkinds.js';
import { FREE, IN_SHAPES, LEADING, NOTE } from './inkmeasures.js';
import { CELL_WIDE, PAGE_HIGH, SIZES } from './inksigns.js';
import { isJoined, placed, writeLink, writeShape, writeWords } from './inkwriting.js';
import { wording } from './language.js';
import { plainOf, writing } from './shapes.js';

/** @typedef {import('./cells.js').Cell} Cell */
/** @typedef {import('./ink.js').Point} Point */
/** @typedef {import('./inkitems.js').Item} Item */
/** Letters of ink that are typed: how they look, their point or the corners of their shape, what stood there, the drawings that it was, and
 * where it ends at the right: there letters begin that are written from the right.
 * @typedef {{ kind: string, colour: number, width: number, flag: number, points: Point[], was: string, old: import('./types.js').Drawing[], right: number }} Letters */
/** What is typed on a page: from a cell on, or letters of ink.
 * @typedef {{ page: string, cell: Cell } | { page: string, letters: Letters }} Typed */

export class Typing {
  /** @param {import('./whiteboard.js').Whiteboard} board */
  constructor(board) {
    this.board = board;
    /** @type {HTMLTextAreaElement} */
    this.box = $('typing');
    /** @type {Typed | null} */
    this.typed = null;
    this.box.addEventListener('input', () => this.check());
    this.box.addEventListener('blur', () => this.end(true));
    this.box.addEventListener('keydown', (event) => this.key(event));
    board.view.onMove(() => this.place());
    board.session.on('board', (_, { isTurned }) => isTurned && this.end(true));
  }

  // ---- what is begun

  /** A text from a cell on.
   * @param {Cell} cell */
  begin(cell) {
    this.open({ page: this.board.session.board.page, cell }, '');
  }

  /** Letters by themselves, their first line about a point.
   * @param {Point} at */
  beginLetters(at) {
    const { colour, size, font } = this.board.style.look, point = { x: at.x, y: Math.max(0, at.y - (SIZES[size] * LEADING) / 2) };
    this.openLetters({ kind: 't', colour, width: size, flag: font, points: [point], was: '', old: [], right: at.x });
  }

  /** A note that is written at once.
   * @param {Point} from @param {Point} to */
  beginNote(from, to) {
    this.openLetters({ kind: 'n', colour: this.board.style.look.bright, width: IN_SHAPES, flag: 1, points: [from, to], was: '', old: [], right: to.x });
  }

  /** The letters of an item that is there, or of a shape that has none.
   * @param {Item} item */
  edit(item) {
    const { kind, colour, width, flag, points: [a, b], letters, drawings } = item, right = kind === 't' ? boxOfLetters(item).x1 : 0;
    const points = isClosed(kind) ? [{ x: Math.min(a.x, b.x), y: Math.min(a.y, b.y) }, { x: Math.max(a.x, b.x), y: Math.max(a.y, b.y) }] : [a];
    this.openLetters({ kind, colour, width, flag, points, was: letters, old: drawings, right });
  }

  /** @param {Letters} letters */
  openLetters(letters) {
    this.open({ page: this.board.session.board.page, letters }, letters.was);
  }

  /** @param {Typed} typed @param {string} text */
  open(typed, text) {
    this.end(true);
    this.typed = typed;
    this.box.value = text;
    this.box.className = 'letters' in typed ? (typed.letters.kind === 'n' ? 'note' : 'ink') : '';
    this.box.removeAttribute('style');
    this.box.hidden = false;
    this.place();
    this.box.focus({ preventScroll: true });
  }

  // ---- where it stands

  place() {
    const { typed } = this;
    if (typed && 'letters' in typed) this.placeLetters(typed.letters);
    else if (typed) this.placeText(typed.cell);
  }

  /** @param {Cell} cell */
  placeText({ x, y }) {
    const { box, board: { view, painter } } = this, rows = box.value.split('\n'), longest = Math.max(...rows.map((row) => row.length));
    Object.assign(box.style, { left: `${view.pixelX(x)}px`, top: `${view.pixelY(y)}px`, height: `${rows.length * view.high}px`,
      width: `${Math.max(2, longest + 1) * view.wide}px`, font: `${view.size}px/${view.high}px ${painter.font}` });
  }

  /** @param {Letters} letters */
  placeLetters(letters) {
    const { box, board: { view, style } } = this, { kind, colour, points: [start, to], right } = letters, isLeftward = this.isLeftward(letters), scale = view.wide / CELL_WIDE, [left, top] = view.corner();
    const item = this.itemOf(letters), { font, size } = standOf(item), high = size * LEADING * scale, rows = box.value.split('\n').length;
    const isNote = kind === 'n', tall = to ? (to.y - start.y) * scale : rows * high + 2, wide = this.wideOf(letters) + size, from = isLeftward ? { x: right - wide, y: start.y } : start;
    Object.assign(box.style, { left: `${from.x * scale - left}px`, top: `${from.y * scale - top}px`, width: `${(to ? to.x - from.x : wide) * scale}px`, height: `${tall}px`,
      font: fontOf(font, size * scale).replace('px', `px/${high}px`), color: isNote ? 'var(--ink)' : style.tintOf(colour),
      textAlign: to && !isNote ? 'center' : 'start', background: isNote ? `color-mix(in srgb, ${style.brightOf(colour)} ${100 * NOTE[this.board.painter.isNight() ? 'night' : 'day']}%, var(--paper))` : 'transparent',
      padding: isNote ? `${(FREE.above - size * FREE.size) * scale}px ${(FREE.note / 2) * scale}px` : to ? `${Math.max(0, (tall - rows * high) / 2)}px 0 0` : '0' });
  }

  /** Whether what is typed by itself is written from the right, and so goes on to the left.
   * @param {Letters} letters */
  isLeftward({ kind }) {
    return kind === 't' && isFromRight(this.box.value);
  }

  /** How wide what is typed is, in units.
   * @param {Letters} letters */
  wideOf(letters) {
    const { font, size } = standOf(this.itemOf(letters));
    return Math.max(...this.box.value.trimEnd().split('\n').map((row) => widthOf(row, font, size)));
  }

  /** What is typed as an item that is not drawn yet.
   * @param {Letters} letters @returns {Item} */
  itemOf({ kind, colour, width, flag, points }) {
    return { kind, colour, width, flag, points, letters: this.box.value || ' ', source: this.board.session.hello.me, drawings: [] };
  }

  /** The lower right corner of a note, so low that its letters are in it.
   * @param {Letters} letters */
  cornerOf(letters) {
    const { points: [from, to] } = letters, item = this.itemOf(letters), { size, y } = standOf(item);
    return { x: to.x, y: Math.min(PAGE_HIGH - 1, Math.max(to.y, y + linesOf(item).length * size * LEADING + (y - from.y))) };
  }

  // ---- what becomes of it

  /** @param {boolean} sends whether what was typed is drawn, on the page where it was typed */
  end(sends) {
    const { typed, box, board: { hand } } = this;
    this.typed = null;
    box.hidden = true;
    if (!typed || !sends) return;
    if ('letters' in typed) this.drawLetters(typed.letters, typed.page);
    else hand.change(writing(plainOf(box.value).plain, typed.cell), [], { page: typed.page });
  }

  /** Draws what was typed as ink, in the place of what stood there. An address alone becomes a link.
   * @param {Letters} letters @param {string} page */
  drawLetters(letters, page) {
    const { kind, colour, width, flag, points, was, old, right } = letters, text = this.box.value.trimEnd(), look = { colour, width }, [start] = points;
    const at = this.isLeftward(letters) ? { ...start, x: Math.max(0, right - this.wideOf(letters)) } : start, link = kind === 't' ? writeLink(look, at, text.trim()) : null;
    // a note without letters is none
    if ((old.length ? text === was.trimEnd() : kind === 'n' && !text)) return;
    const shape = kind === 'n' ? [at, this.cornerOf(letters)] : points;
    const texts = link ? [link] : isClosed(kind) ? writeShape(kind, look, flag, shape, text) : writeWords(look, flag, at, text);
    const group = this.groupOf(old), shapes = texts.map((each, i) => placed(each, 0, false, !i && old.slice(0, 1).some(isJoined)));
    const all = group.length > 1 ? group.flatMap(({ drawings }) => (drawings[0] === old[0] ? shapes : drawings)) : shapes;
    this.board.hand.change(all, group.length > 1 ? group.flatMap(({ drawings }) => drawings) : old, { page, isAgain: old.length > 0 });
  }

  /** The group of what is typed anew, if it is there still: all of it is drawn anew.
   * @param {import('./types.js').Drawing[]} old */
  groupOf([first]) {
    const { kept } = this.board.ink, item = first && kept.itemOf(first.source, first.seq);
    return item && item.drawings[0] === first ? kept.groupOf(item) : [];
  }

  /** Says at once which letters cells don't have. They stay until Enter shows what would be drawn in their place. */
  check() {
    const { typed, box } = this, { lost } = plainOf(box.value);
    this.place();
    if (!typed || 'letters' in typed) return;
    box.classList.toggle('lost', lost.length > 0);
    if (lost.length) tell(wording('cannotDraw', { letters: lost.slice(0, 8).join(' ') }));
    else if (box.value.split('\n').some((row) => typed.cell.x + row.length > SIDE)) tell(wording('pageEnds'));
  }

  /** Enter draws, and Shift and Enter begin a new line; in a note Enter does that, and Control and Enter draw. Escape drops a text, and keeps a note.
   * @param {KeyboardEvent} event */
  key(event) {
    event.stopPropagation();
    const { typed, box } = this, isInk = typed && 'letters' in typed, isNote = isInk && typed.letters.kind === 'n', { plain, lost } = plainOf(box.value);
    const isEnter = event.key === 'Enter' && (isNote ? event.ctrlKey || event.metaKey : !event.shiftKey);
    if (event.isComposing || (!isEnter && event.key !== 'Escape')) return;
    event.preventDefault();
    if (isEnter && !isInk && lost.length) {
      box.value = plain;
      this.check();
      tell(wording('canBeDrawn'));
      return;
    }
    this.end(isEnter || Boolean(isNote));
    this.board.view.sheet.focus(/** @type {FocusOptions} */ ({ preventScroll: true, focusVisible: false }));
  }
}
