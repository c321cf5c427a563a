/** Undo and redo by steps: what one gesture drew, deleted and restored, however many drawops it took. */
import { nameOf } from './cells.js';
import { say, tell } from './dom.js';
import { wording } from './language.js';

/** @typedef {import('./session.js').Session} Session */
/** @typedef {import('./types.js').Shape} Shape */
/** @typedef {{ source: number, seq: number }} Name */
/** What a step did to a drawing: whether it is shown since.
 * @typedef {{ name: Name, isShown: boolean }} Deed */

export class Steps {
  /** @param {Session} session */
  constructor(session) {
    this.session = session;
    /** @type {Step[]} */
    this.done = [];
    /** @type {Step[]} */
    this.undone = [];
    /** Our drawings that an undo hides, while the board still shows them.
     * @type {Set<string>} */
    this.leaving = new Set();
    /** The drawings that are painted as one with a drawing.
     * @type {(drawing: import('./types.js').Drawing) => import('./types.js').Drawing[]} */
    this.itemOf = (drawing) => [drawing];
    /** Drawings that we restored, while the board does not show them yet.
     * @type {Set<string>} */
    this.coming = new Set();
    session.on('board', (_, { isTurned }) => {
      this.leaving.clear();
      this.coming.forEach((name) => (isTurned || session.shown.has(name)) && this.coming.delete(name));
    });
  }

  /** A new step, on the page in view if no other is named. What can be restored by redo is forgotten.
   * @param {string} [page] */
  begin(page = this.session.board.page) {
    const step = new Step(this.session, page, this.coming);
    this.done.push(step);
    this.undone = this.undone.filter(({ page }) => page !== step.page);
    return step;
  }

  /** One drawing as a step.
   * @param {Shape[]} shapes */
  draw(shapes) {
    const step = this.begin();
    shapes.forEach((shape) => step.draw(shape));
    return step;
  }

  /** The other drawings of the step that a drawing is of, and itself.
   * @param {Name} drawing @returns {Set<string>} */
  groupOf(drawing) {
    const name = nameOf(drawing), step = this.done.find(({ page, deeds }) => page === this.session.board.page
      && deeds.some((deed) => deed.isShown && nameOf(deed.name) === name));
    return new Set(step ? step.deeds.filter(({ isShown }) => isShown).map((deed) => nameOf(deed.name)) : [name]);
  }

  async undo() {
    const at = this.done.findLastIndex(({ page, isEmpty }) => page === this.session.board.page && !isEmpty);
    if (at < 0) return this.undoDrawn();
    const [step] = this.done.splice(at, 1);
    if (await step.isMoot()) return tell(wording('undoMoot'));
    this.undone.push(await step.reversed());
    return undefined;
  }

  async redo() {
    const at = this.undone.findLastIndex(({ page }) => page === this.session.board.page);
    if (at < 0) return say(wording('nothingToRedo'));
    const [step] = this.undone.splice(at, 1);
    this.done.push(await step.reversed());
    return undefined;
  }

  /** Hides our last item that the page shows: it was drawn before this page was opened. */
  async undoDrawn() {
    const { board, hello } = this.session;
    const ours = board.drawops.filter((drawing) => drawing.source === hello.me && !this.leaving.has(nameOf(drawing)));
    if (!ours.length) return say(wording('nothingOfYours'));
    const last = ours.reduce((a, b) => (a.seq > b.seq ? a : b)), step = new Step(this.session, board.page, this.coming);
    for (const drawing of this.itemOf(last)) {
      this.leaving.add(nameOf(drawing));
      step.hide(drawing);
    }
    this.undone.push(step);
    return undefined;
  }
}

class Step {
  /** @param {Session} session @param {string} page @param {Set<string>} coming what is restored and not shown yet */
  constructor(session, page, coming) {
    this.session = session;
    this.page = page;
    this.coming = coming;
    /** What was done, in order, as far as the member has taken it.
     * @type {Deed[]} */
    this.deeds = [];
    /** @type {Promise<any>[]} */
    this.asked = [];
  }

  get isEmpty() {
    return this.asked.length === 0;
  }

  /** @param {Shape} shape */
  draw(shape) {
    this.keep(this.session.draw(shape, this.page), true, null);
  }

  /** @param {Name} drawing */
  hide(drawing) {
    this.keep(this.session.hide(drawing, this.page), false, drawing);
  }

  /** @param {Name} drawing */
  restore(drawing) {
    this.coming.add(nameOf(drawing));
    this.keep(this.session.restore(drawing, this.page), true, drawing);
  }

  /** Keeps a deed once the member has taken it.
   * @param {Promise<import('./types.js').Reply>} asked @param {boolean} isShown @param {Name | null} target null for the drawing itself */
  keep(asked, isShown, target) {
    this.asked.push(asked.then(({ ok, source = 0, seq = 0 }) => {
      const { source: of, seq: number } = target ?? { source, seq };
      if (ok) this.deeds.push({ name: { source: of, seq: number }, isShown });
    }));
  }

  /** The names of the drawings that are shown since. */
  async names() {
    await Promise.all(this.asked);
    return this.deeds.filter(({ isShown }) => isShown).map(({ name }) => nameOf(name));
  }

  /** What was drawn and is shown no more, since somebody erased it.
   * @param {Deed} deed */
  isErased({ name, isShown }) {
    const { board, erased } = this.session;
    return isShown && this.page === board.page && erased.has(nameOf(name)) && !this.coming.has(nameOf(name));
  }

  /** Whether there is nothing left to take back. */
  async isMoot() {
    await Promise.all(this.asked);
    return this.deeds.length > 0 && this.deeds.every((deed) => this.isErased(deed));
  }

  /** Does the opposite, last deed first, and gives the step that did. What is erased already is left alone. */
  async reversed() {
    await Promise.all(this.asked);
    const step = new Step(this.session, this.page, this.coming);
    for (const deed of [...this.deeds].reverse().filter((each) => !this.isErased(each))) {
      if (deed.isShown) step.hide(deed.name);
      else step.restore(deed.name);
    }
    return step;
  }
}
