/** Who moves the view: the hand at any time, and others while the hand does nothing. */

/** Milliseconds between two looks whether the hand has come to rest. */
const PAUSE = 80;

export class Owner {
  /** @param {import('./whiteboard.js').Whiteboard} board */
  constructor(board) {
    this.board = board;
    /** Is called when the hand moves the view.
     * @type {() => void} */
    this.taken = () => {};
    /** What others wish for, until the hand rests.
     * @type {(() => void) | null} */
    this.wish = null;
  }

  /** Whether the hand draws, drags, types, or answers a question. */
  isHeld() {
    const { hand, pointing, typing } = this.board;
    return Boolean(hand.gesture || pointing.fingers.size || typing.typed || document.querySelector('dialog[open]'));
  }

  /** The hand moves the view. */
  take() {
    this.wish = null;
    this.board.sight.stay();
    this.taken();
  }

  /** Does what others wish for, once the hand rests. The last wish counts.
   * @param {() => void} wish */
  offer(wish) {
    const isWaiting = this.wish !== null;
    this.wish = wish;
    if (!isWaiting) this.look();
  }

  look() {
    const { wish } = this;
    if (wish && this.isHeld()) setTimeout(() => this.look(), PAUSE);
    else {
      this.wish = null;
      wish?.();
    }
  }
}
