/** What is in sight: everything at once, the way back to the drawings, the look of the page, and light or dark. */
import { $ } from './dom.js';
import { KINDS } from './inkkinds.js';
import { boxAboutAll } from './inkpaint.js';
import { FIRST_ROW } from './inksigns.js';
import { wording } from './language.js';
import { USUAL } from './view.js';

/** Tools that one of the looks has not. */
const OF_INK = ['ellipse', 'diamond', 'note', 'marker', 'hand'], OF_CELLS = ['block'];

/** Points that stay free about everything, and beside what floats over the sheet. */
const FREE = { across: 28, down: 20, beside: 16 };

export class Sight {
  /** @param {import('./whiteboard.js').Whiteboard} board */
  constructor(board) {
    this.board = board;
    /** Whether all of the page is shown as soon as its ink is taken. */
    this.isToFit = false;
    board.view.onMove(() => this.moved());
    $('percent').addEventListener('click', () => { board.owner.take(); board.view.fit(); });
    $('fit').addEventListener('click', () => this.all());
    $('away').addEventListener('click', () => (board.painter.isInk ? this.all() : board.view.goTo(0, FIRST_ROW - 2)));
    $('look').addEventListener('change', () => this.setLook($('look').value === 'ink'));
    $('theme').addEventListener('change', () => this.setTheme($('theme').value));
    $('theme').value = board.painter.theme;
    this.setLook(board.painter.isInk);
  }

  /** Another page is shown: all of it, once its ink is taken. */
  begin() {
    this.isToFit = true;
    this.board.view.home();
    this.show();
  }

  /** The hand is on the sheet, or all is shown: the view moves no more by itself. */
  stay() {
    this.isToFit = false;
  }

  /** Another part of the page is in view. */
  moved() {
    const told = `${Math.round((100 * this.board.view.wide) / USUAL)} %`;
    if ($('percent').textContent !== told) $('percent').textContent = told;
    this.showAway();
    this.board.painter.soon();
  }

  /** Items have come or gone. */
  show() {
    const { ink, painter } = this.board;
    if (this.isToFit && !ink.waiting.length) {
      if (painter.isInk) this.fitAll();
      this.stay();
    }
    this.showAway();
  }

  /** Says where the drawings are if none is in view. */
  showAway() {
    const { view, ink, painter } = this.board;
    const isPacked = () => view.top + view.rows < FIRST_ROW && ink.items.some(({ kind }) => !KINDS[kind].isPlain);
    $('away').hidden = painter.isInk ? !ink.items.length || ink.grid.hasAny(view.boxInUnits()) : !isPacked();
    $('away').textContent = painter.isInk ? wording('backToDrawings') : wording('inkPacked', { row: FIRST_ROW });
  }

  /** The hand asks for everything. */
  all() {
    this.board.owner.take();
    this.fitAll();
  }

  /** Shows everything, beside what floats over the sheet; by characters, the corner of the page. */
  fitAll() {
    const { view, ink, painter } = this.board, edge = { top: FREE.down, right: FREE.across, bottom: FREE.down, left: FREE.across };
    this.stay();
    if (!painter.isInk) {
      view.fit();
      view.home();
      return;
    }
    for (const island of document.querySelectorAll('.island:not(#chosen)')) {
      const { top, bottom, height } = island.getBoundingClientRect();
      if (height && top + bottom < innerHeight) edge.top = Math.max(edge.top, bottom + FREE.beside);
      else if (height) edge.bottom = Math.max(edge.bottom, innerHeight - top + FREE.beside);
    }
    view.fitTo(boxAboutAll(ink.items), edge);
  }

  /** As ink, or as the characters that are proved.
   * @param {boolean} isInk */
  setLook(isInk) {
    const { painter, view, hand, pen } = this.board;
    pen.flush();
    painter.setLook(isInk);
    view.setLook(isInk);
    document.body.dataset.look = $('look').value = isInk ? 'ink' : 'cells';
    if ((isInk ? OF_CELLS : OF_INK).includes(hand.tool)) hand.choose('pen');
    this.showAway();
  }

  /** Light or dark, or as the system is.
   * @param {string} theme */
  setTheme(theme) {
    this.board.painter.setTheme(theme);
    this.board.changeColours();
  }
}
