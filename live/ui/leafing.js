/** What is done to a page as a whole: it is moved among the others, copied, deleted and brought back. */
import { $ } from './dom.js';
import { colourFor } from './eraser.js';
import { rowsOf } from './history.js';
import { Items } from './inkitems.js';
import { recoloured } from './inkwriting.js';
import { wording } from './language.js';
import { isGone } from './leaves.js';
import { NOTES } from './notes.js';

/** @typedef {import('./types.js').Board} Board */
/** @typedef {import('./types.js').Shape} Shape */

export class Leafing {
  /** @param {import('./whiteboard.js').Whiteboard} board */
  constructor(board) {
    this.board = board;
    board.session.on('notes', () => this.showPaper());
    board.session.on('board', (_, { isTurned }) => isTurned && this.showPaper());
    $('ground').addEventListener('change', () => board.notes.paper(board.session.board.page, $('ground').value));
  }

  /** Shows on what paper the page in view is. */
  showPaper() {
    const { notes, session, painter } = this.board, paper = notes.paperOf(session.board.page);
    if ($('ground') !== document.activeElement) $('ground').value = paper;
    painter.soon();
  }

  /** Begins a new page, on the paper of the one in view. */
  async begin() {
    const { session, notes } = this.board, paper = notes.paperOf(session.board.page), page = await session.goToPage(null);
    if (page && paper !== 'dots') notes.paper(page, paper);
  }

  /** What a page shows, which need not be in view.
   * @param {string} page @returns {Promise<Board | null>} */
  async read(page) {
    const { session } = this.board;
    return page === session.board.page ? session.board : await session.member.read?.(page) ?? null;
  }

  /** Puts a page some places on, or back.
   * @param {string} page @param {number} by */
  move(page, by) {
    const leaves = this.board.session.leaves(), others = leaves.filter((leaf) => leaf.page !== page), at = leaves.findIndex((leaf) => leaf.page === page) + by;
    return at < 0 || at > others.length ? false : this.board.notes.place(page, others[at - 1]?.page ?? NOTES);
  }

  /** Draws what a page shows on a new one, behind it, which is turned to.
   * @param {string} page */
  async copy(page) {
    const { session, steps, notes } = this.board, from = await this.read(page), title = session.titles.get(page), copy = from && await session.member.choose(null);
    if (!from || !copy?.ok || !copy.page) return;
    const step = steps.begin(copy.page);
    const items = new Items();
    items.show(from.drawops);
    // the inks of an item and the items of a group follow one another, so that they are one again
    items.inGroups().forEach(({ item, drawings }) => drawings.forEach((drawing) => step.draw(this.copied(drawing, colourFor(item, this.board.hand)))));
    await step.names();
    notes.place(copy.page, page);
    if (title) notes.entitle(copy.page, wording('copyOf', { title }));
    if (notes.told.papers.has(page)) notes.paper(copy.page, notes.paperOf(page));
  }

  /** @param {Shape} shape @param {number} colour @returns {Shape} */
  copied(shape, colour) {
    const text = shape.op === 'text' ? recoloured(shape.text, colour) : null;
    return text === null ? shape : { .../** @type {any} */ (shape), text };
  }

  /** Erases all of a page, and takes it out of the list.
   * @param {string} page */
  async remove(page) {
    const { session, steps, notes } = this.board, found = await this.read(page), leaves = session.leaves(), at = leaves.findIndex((leaf) => leaf.page === page);
    if (!found || !confirm(wording('askDelete', { page: session.titleOf(page), n: found.drawops.length + 1 }))) return;
    const step = steps.begin(page);
    found.drawops.forEach((drawing) => step.hide(drawing));
    if (page === session.board.page) session.goToPage((leaves[at + 1] ?? leaves[at - 1])?.page ?? null);
    if (session.pages.some((leaf) => leaf.page === page && leaf.drawn)) notes.remove(page);
  }

  /** The pages that were deleted. */
  removed() {
    const { session, notes } = this.board;
    return session.pages.filter((leaf) => leaf.page !== session.board.page && isGone(leaf, notes.told.gone));
  }

  /** Restores what was erased last of a page, all at once, and turns to it.
   * @param {string} page */
  async bringBack(page) {
    const { session, steps, notes } = this.board, found = await this.read(page), [row] = found ? rowsOf(found) : [], step = steps.begin(page);
    row?.drawings.forEach((drawing) => step.restore(drawing));
    notes.keep(page);
    session.goToPage(page);
  }
}
