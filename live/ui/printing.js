/** The page on paper: each page of the board on a sheet of its own, on white and by day whatever the screen is, its letters as text. */
import { $, make } from './dom.js';

/** @typedef {import('./files.js').Files} Files */
/** @typedef {import('./types.js').Board} Board */

export class Printing {
  /** @param {Files} files */
  constructor(files) {
    this.files = files;
    // the browser's own command prints the page in view
    addEventListener('beforeprint', () => $('paper').childElementCount || this.fill([files.shown]));
    addEventListener('afterprint', () => $('paper').replaceChildren());
    $('print-page').addEventListener('click', () => print());
    $('print-all').addEventListener('click', () => this.printAll());
  }

  /** Prints all pages that have drawings. */
  async printAll() {
    const boards = await this.files.boards(), drawn = boards.filter(({ drawops }) => drawops.length);
    this.fill(drawn.length ? drawn : [this.files.shown]);
    print();
  }

  /** @param {Board[]} boards */
  fill(boards) {
    $('paper').replaceChildren(...boards.map((board) => this.sheet(board)));
  }

  /** A page as it lies on its paper: upright, or on its side where it is wider than high.
   * @param {Board} board */
  sheet(board) {
    const picture = document.importNode(new DOMParser().parseFromString(this.files.svg(board), 'image/svg+xml').documentElement, true);
    const [wide, high] = ['width', 'height'].map((side) => Number(picture.getAttribute(side))), sheet = make('section', '', wide > high ? 'wide' : 'tall');
    sheet.append(picture);
    return sheet;
  }
}
