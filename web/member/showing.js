/** What a page shows, as the host says it: it is asked for what the page shows otherwise than when it was asked last. As `live/showing.py`. */
import { aimedBy, isDrawing } from './views.js';

/** @typedef {import('./views.js').Drawop} Drawop */

/** A drawing that is shown, and its place among all that are.
 * @typedef {[number, Drawop]} Placed */

/** A drawing that is hidden, the delete that took it away, and what the source of that did just before.
 * @typedef {Drawop & { by: Drawop | null, before: Drawop | null }} Erased */

/** A block of `since`: how many drawops the host holds, the names of the drawings that are to be taken off, and those that are to be put in then, one
 * after another.
 * @typedef {{ held: number, hidden: string[], shown: Placed[] }} Since */

/** What became of a page: the drawings that changed and were there before, and those of all that changed that are shown now, and that are hidden now.
 * @typedef {{ before: Drawop[], added: Placed[], hidden: Erased[] }} Change */

/** One page at one host. */
export class Showing {
  /** @param {string} page */
  constructor(page) {
    this.page = page;
    this.held = 0; // how many drawops the host held when it was asked last
    this.seen = 0; // how many of the page were held then
    /** @type {Drawop[]} */
    this.shown = [];
    /** Of these.
     * @type {Set<string>} */
    this.names = new Set();
    /** The drawings of which the last word is a delete, the one last that was deleted last.
     * @type {Map<string, Erased>} */
    this.hidden = new Map();
  }

  /** Asks the host once more. What was shown and still is has not changed, though the host may say it.
   * @param {import('./board.js').Board} board @param {import('./drawn.js').Sheet} sheet @returns {Promise<Change>} */
  async renew(board, sheet) {
    const { drawops } = sheet, { held, hidden: taken, shown } = await board.since(this.page, this.held), told = new Set(shown.map(([, { name }]) => name));
    const gone = new Set(taken.filter((name) => this.names.has(name) && !told.has(name)));
    const added = shown.flatMap(([place, drawop]) => (this.names.has(drawop.name) ? [] : [/** @type {Placed} */ ([place, drawops.get(drawop.name) ?? drawop])]));
    // What a hidden drawing's eraser did before may come after that. Then views get the hidden ones from there on anew, in their order.
    const fresh = [...drawops.values()].slice(this.seen), names = [...this.hidden.keys()];
    const late = new Set(fresh.flatMap((drawop) => sheet.after(drawop) ?? []).filter((drawop) => !isDrawing(drawop)).map(aimedBy)), first = names.findIndex((name) => late.has(name));
    const changed = touched(fresh, first < 0 ? [] : names.slice(first)).flatMap((name) => drawops.get(name) ?? []).filter(isDrawing);
    const hidden = changed.filter(({ name }) => !told.has(name)).map((drawop) => erasedOn(sheet, drawop)), before = changed.filter(({ name }) => gone.has(name) || this.hidden.has(name));
    [this.held, this.seen] = [held, drawops.size];
    this.putIn(gone, added, hidden);
    return { before, added, hidden };
  }

  /** Whether another host shows the same of the page.
   * @param {Showing | null} other */
  isAs(other) {
    return other?.page === this.page && areSame(this.shown, other.shown) && areErasedAlike([...this.hidden.values()], [...other.hidden.values()]);
  }

  /** @param {Set<string>} gone @param {Placed[]} added @param {Erased[]} hidden */
  putIn(gone, added, hidden) {
    if (gone.size) this.shown = this.shown.filter(({ name }) => !gone.has(name));
    for (const name of gone) this.names.delete(name);
    for (const [place, drawop] of added) {
      this.shown.splice(place, 0, drawop);
      this.names.add(drawop.name);
      this.hidden.delete(drawop.name);
    }
    for (const drawop of hidden) {
      this.hidden.delete(drawop.name);
      this.hidden.set(drawop.name, drawop);
    }
  }
}

/** @param {Drawop[]} one @param {Drawop[]} other */
const areSame = (one, other) => one.length === other.length && one.every((drawop, i) => drawop === other[i]);

/** @param {Erased[]} one @param {Erased[]} other */
const areErasedAlike = (one, other) => one.length === other.length && one.every(({ name, by, before }, i) => (
  name === other[i].name && by === other[i].by && before === other[i].before));

/** @param {import('./drawn.js').Sheet} sheet @param {Drawop} drawop @returns {Erased} */
function erasedOn(sheet, drawop) {
  const by = sheet.eraser(drawop.name);
  return { ...drawop, by, before: by && sheet.before(by) };
}

/** These names, and those of what these drew, deleted or restored, in the order in which the last of them did so.
 * @param {Drawop[]} drawops @param {string[]} before */
function touched(drawops, before) {
  const names = new Set(before);
  for (const drawop of drawops) {
    const aimed = isDrawing(drawop) ? drawop.name : aimedBy(drawop);
    names.delete(aimed);
    names.add(aimed);
  }
  return [...names];
}
