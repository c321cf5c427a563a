/** The pages at a glance: one turns to one of them, and moves, copies, deletes and brings back pages. */
import { $, make } from './dom.js';
import { laidOut, runsOf } from './exports.js';
import { rowsOf } from './history.js';
import { wording } from './language.js';

/** @typedef {import('./types.js').Board} Board */

/** The cells of a page at a glance, and points of each; and of ink the points of it all. */
const GLANCE = { columns: 120, rows: 60, wide: 1.5, high: 2 }, OF_INK = { width: 416, height: 260 };

export class Overview {
  /** @param {import('./whiteboard.js').Whiteboard} board */
  constructor(board) {
    this.board = board;
    /** How often it was filled. */
    this.turn = 0;
    board.session.on('pages', () => this.showAgain());
    board.session.on('notes', () => this.showAgain());
  }

  show() {
    $('overview').showModal();
    return this.fill();
  }

  /** What is shown was changed, perhaps by others. */
  showAgain() {
    if ($('overview').open) this.fill();
  }

  async fill() {
    const { files, leafing } = this.board, turn = this.turn += 1, boards = await files.boards();
    const removed = await Promise.all(leafing.removed().map(({ page }) => leafing.read(page)));
    if (turn !== this.turn) return;
    const focused = document.activeElement?.getAttribute('aria-label'), gone = removed.flatMap((board) => (board ? [this.removed(board)] : []));
    $('glances').replaceChildren(...boards.map((board, i) => this.glance(board, i, boards.length)), ...gone);
    const again = focused && $('glances').querySelector(`[aria-label=${JSON.stringify(focused)}]`);
    if (again) again.focus();
  }

  /** A page, which a click turns to, and what can be done with it.
   * @param {Board} board @param {number} at @param {number} many */
  glance(board, at, many) {
    const { session, leafing } = this.board, { page } = board, title = session.titleOf(page), button = this.picture(board, title), row = make('div', '', 'keys');
    button.setAttribute('aria-current', String(page === session.board.page));
    button.addEventListener('click', () => {
      $('overview').close();
      session.goToPage(page);
    });
    /** @type {[import('./language.js').Key, boolean, () => any][]} */
    const acts = [['earlier', at > 0, () => leafing.move(page, -1)], ['later', at < many - 1, () => leafing.move(page, 1)],
      ['copy', true, () => { $('overview').close(); leafing.copy(page); }], ['delete', session.mayClear, () => leafing.remove(page)]];
    row.append(...acts.map(([name, may, act]) => deed(name, title, may, act)));
    return framed(page, button, row);
  }

  /** A page that was deleted, as it was.
   * @param {Board} board */
  removed(board) {
    const { session, leafing } = this.board, [row] = rowsOf(board), title = session.titles.get(board.page) ?? wording('aPage'), isMine = row?.by === session.hello.me;
    const button = this.picture({ ...board, drawops: [...board.drawops, ...row?.drawings ?? []] }, row ? wording(isMine ? 'pageDeletedByYou' : 'pageDeletedBy', { title, who: session.nameOf(row.by) }) : wording('pageDeleted', { title }));
    button.disabled = true;
    const back = deed('bringBack', title, true, () => { $('overview').close(); leafing.bringBack(board.page); }), keys = make('div', '', 'keys');
    keys.append(back);
    const card = framed(board.page, button, keys);
    card.classList.add('gone');
    return card;
  }

  /** @param {Board} board @param {string} title */
  picture(board, title) {
    const button = make('button', '', 'turn'), canvas = make('canvas');
    this.paint(canvas, board);
    button.append(canvas, make('span', title));
    return button;
  }

  /** Paints a small picture of a page, in the look of the page.
   * @param {HTMLCanvasElement} canvas @param {Board} board @param {number} [times] as large */
  paint(canvas, board, times = 1) {
    const { painter, files } = this.board;
    if (painter.isInk) files.paintInk(files.sheetOf(canvas, OF_INK.width * times, OF_INK.height * times), board, 10 * times);
    else this.paintCells(canvas, board);
  }

  /** @param {HTMLCanvasElement} canvas @param {Board} board */
  paintCells(canvas, board) {
    const { painter, files } = this.board, { columns, rows, wide, high } = GLANCE, brush = files.sheetOf(canvas, columns * wide, rows * high);
    for (const { x, y, source, text } of runsOf(laidOut(board), { left: 0, top: 0, columns, rows })) {
      brush.fillStyle = source < 0 ? painter.colours.ink : painter.tintOf(source);
      brush.fillRect(x * wide, y * high, text.length * wide, high - 0.5);
    }
  }
}

/** @type {(page: string, ...parts: HTMLElement[]) => HTMLElement} */
function framed(page, ...parts) {
  const frame = make('div', '', 'glance');
  frame.dataset.page = page;
  frame.append(...parts);
  return frame;
}

/** @type {(name: import('./language.js').Key, title: string, may: boolean, act: () => any) => HTMLElement} */
function deed(name, title, may, act) {
  const button = Object.assign(make('button', wording(name)), { type: 'button', disabled: !may });
  button.setAttribute('aria-label', wording('deedOf', { deed: wording(name), title }));
  button.addEventListener('click', act);
  return button;
}
