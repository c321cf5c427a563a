/** The pen and the highlighter: a stroke is sent while it is drawn, text by text, and strokes near to one another share a text. */
import { distance, off } from './inkcurves.js';
import { fitted } from './inkfitting.js';
import { CELL_WIDE } from './inksigns.js';
import { bySpeed } from './inkspeed.js';
import { placed, writeStroke } from './inkwriting.js';

/** @typedef {import('./types.js').Shape} Shape */
/** @typedef {import('./ink.js').Point} Point */
/** @typedef {import('./inkspeed.js').Timed} Timed */
/** @typedef {import('./inkwriting.js').Nib} Nib */
/** The points that are kept of a hand's way, each with its place in the way.
 * @typedef {(Point & { i?: number })[]} Knots */
/** @typedef {import('./inkwriting.js').Written} Written */

/** After this many milliseconds without a stroke what was written is sent; until then a stroke that begins within a number of cells of the end
 * of the last one goes into the same text. */
const RESTS = 700, NEAR_CELLS = 14;

/** A hand's way is kept as near as this many points of the screen; points of it that are nearer to one another are one. */
const NEAR = 0.55, APART = 0.3;

/** A stroke that is about straight becomes so if the pen rests for this many milliseconds at its end; how far it may be off, as a part of its length. */
const HELD = 600, ABOUT_STRAIGHT = 0.12;

/** Points of a way that is written which are known still. */
const KNOWN = 32;

/** The last points of a stroke, which still change as it goes on: a text is sent if it has none of them. */
const OPEN = 4;

/** After this many more points, whether a text is full is looked at. */
const LOOKED_AT = 6;

/** Strokes of one look that are not all sent yet, on one page. */
class Strokes {
  /** @param {Nib} nib @param {string} page @param {ReturnType<import('./steps.js').Steps['begin']>} step @param {number} point of the screen, in units */
  constructor(nib, page, step, point) {
    this.nib = nib;
    this.page = page;
    this.step = step;
    this.point = point;
    /** The points of strokes that are done, and the way of the one that is drawn.
     * @type {Knots} */
    this.knots = [];
    /** @type {Timed[]} */
    this.way = [];
    /** What of it is written already, as far as it is needed still.
     * @type {Timed[]} */
    this.before = [];
    /** Whether a text of them is sent: what follows goes on with it. */
    this.isMore = false;
    this.isDown = false;
    /** Whether nothing of the stroke that is drawn is sent, and whether it is held straight. */
    this.isWhole = true;
    this.isStraight = false;
    this.timer = 0;
    /** What is not sent, as it was made last; null where it is another since.
     * @type {{ knots: Knots, texts: Written[] } | null} */
    this.made = null;
  }

  /** Puts the pen down.
   * @param {Point} at */
  begin(at) {
    clearTimeout(this.timer);
    Object.assign(this, { way: [at], before: [], isDown: true, isWhole: true, isStraight: false, made: null });
  }

  /** Goes on to points that are not too near to one another; how many more the way has.
   * @param {Point[]} points */
  add(points) {
    const before = this.way.length;
    if (this.isStraight && points.length) {
      [this.way, this.made] = [[this.way[0], points[points.length - 1]], null];
      return 0;
    }
    for (const point of points) {
      const last = this.way[this.way.length - 1];
      if (Math.hypot(point.x - last.x, point.y - last.y) > APART * this.point) this.way.push(point);
    }
    this.made = null;
    return this.way.length - before;
  }

  /** Makes the stroke that is drawn straight, if it is about so and nothing of it is sent; whether it was. */
  straighten() {
    const { way } = this, first = way[0], last = way[way.length - 1], far = way.length > 2 ? Math.hypot(last.x - first.x, last.y - first.y) : 0;
    const isAbout = this.isDown && this.isWhole && far > 0 && way.every((point) => off(point, first, last) < far * ABOUT_STRAIGHT);
    if (isAbout) Object.assign(this, { way: [first, last], isStraight: true, made: null });
    return isAbout;
  }

  /** Lifts the pen, and keeps the stroke if it is to be.
   * @param {boolean} isKept */
  lift(isKept) {
    if (isKept) this.knots.push(...this.fit(true));
    Object.assign(this, { way: [], before: [], isDown: false, made: null });
  }

  /** Drops what was drawn since the pen was lifted last, if that was; whether it was so. */
  takeBack() {
    const at = this.knots.findLastIndex(({ up }) => up);
    if (at > 0) [this.knots.length, this.made] = [at, null];
    return at > 0;
  }

  /** @param {boolean} [isDone] whether the pen is lifted */
  fit(isDone = false) {
    const way = this.way.map((at, i) => ({ ...at, i })), isTold = this.nib.kind !== 'v' || this.way[0]?.pressure !== undefined;
    return fitted(isTold ? way : bySpeed(way, this.before, this.point, isDone), NEAR * this.point, this.before);
  }

  /** All that is not sent, in points and in texts. */
  open() {
    this.made ??= this.make();
    return this.made;
  }

  make() {
    const knots = [...this.knots, ...this.fit()];
    if (!knots.length) return { knots, texts: [] };
    const [{ up, ...first }, ...others] = knots;
    return { knots, texts: writeStroke(this.nib, [first, ...others], this.isMore) };
  }

  /** Keeps what follows the last text that was sent, from where it ends.
   * @param {Knots} knots @param {Written} last */
  after(knots, { upTo, end }) {
    const done = this.knots.length, placeOf = (/** @type {number} */ at) => knots[at]?.i ?? 0;
    Object.assign(this, { isMore: true, isWhole: upTo < done, made: null });
    if (upTo < done) this.knots = [end, ...this.knots.slice(upTo + 1)];
    else this.cut(end, placeOf(upTo), placeOf(upTo + 1));
  }

  /** The way goes on from where a text ends, at one of these places of it or between them. What comes before is known still: it says how the way goes there.
   * @param {Point} end @param {number} from @param {number} to */
  cut(end, from, to) {
    let at = from;
    for (let i = from; i <= to; i += 1) if (distance(this.way[i], end) < distance(this.way[at], end)) at = i;
    const whole = [...this.before, ...this.way], many = this.before.length, next = this.way[at + 1];
    // a point that is not left behind yet
    const isAhead = next && (next.x - this.way[at].x) * (end.x - this.way[at].x) + (next.y - this.way[at].y) * (end.y - this.way[at].y) > 0;
    this.before = whole.slice(Math.max(0, many + at - KNOWN), many + at + (isAhead ? 1 : 0));
    const { time } = this.way[at], { pressure, ...place } = end, isTold = this.way[at].pressure !== undefined;
    this.way = [{ ...place, time, ...isTold ? { pressure } : {} }, ...this.way.slice(at + 1)];
    this.knots = [];
  }
}

export class Pen {
  /** @param {import('./whiteboard.js').Whiteboard} board */
  constructor(board) {
    this.board = board;
    /** @type {Strokes | null} */
    this.strokes = null;
    this.rests = RESTS;
    this.holds = HELD;
    this.hold = 0;
    this.unseen = 0;
    addEventListener('pagehide', () => this.flush());
    board.session.on('board', (_, { isTurned }) => isTurned && this.flush());
  }

  /** A point of the screen, in units. */
  get point() {
    return CELL_WIDE / this.board.view.wide;
  }

  /** The finest scale of which a unit is a quarter of a point of the screen at least. */
  scale() {
    return Math.min(5, Math.max(0, Math.ceil(Math.log2(0.25 * this.point))));
  }

  /** Puts the pen down.
   * @param {Omit<Nib, 'scale'>} look @param {Point} at */
  begin(look, at) {
    const nib = { ...look, scale: this.scale(), isFree: true }, isOn = this.goesOn(nib, at);
    if (!isOn) this.flush();
    this.strokes ??= new Strokes(nib, this.board.session.board.page, this.board.steps.begin(), this.point);
    this.strokes.begin(isOn ? { ...at, up: true } : at);
    this.unseen = 0;
  }

  /** Whether a stroke goes into the text of the last one.
   * @param {Nib} nib @param {Point} at */
  goesOn(nib, at) {
    const { strokes } = this, end = strokes?.knots[strokes.knots.length - 1];
    return Boolean(strokes && end) && JSON.stringify(strokes?.nib) === JSON.stringify(nib) && strokes?.page === this.board.session.board.page
      && Math.hypot(at.x - (end?.x ?? 0), at.y - (end?.y ?? 0)) < NEAR_CELLS * CELL_WIDE;
  }

  /** The pen goes on; what has become a full text is sent.
   * @param {Point[]} points */
  move(points) {
    const { strokes } = this;
    if (!strokes?.isDown) return;
    clearTimeout(this.hold);
    this.hold = /** @type {any} */ (setTimeout(() => strokes.straighten() && this.board.painter.soon(), this.holds));
    this.unseen += strokes.add(points);
    if (this.unseen < LOOKED_AT) return;
    const { knots, texts } = strokes.open(), full = texts.slice(0, -1).filter(({ upTo }) => upTo + OPEN < knots.length);
    this.unseen = 0;
    full.forEach((text) => this.send(strokes, text));
    if (full.length) strokes.after(knots, full[full.length - 1]);
  }

  /** @param {Strokes} strokes @param {Written} written */
  send(strokes, { text }) {
    strokes.step.draw(this.board.hand.placed(text));
  }

  /** Lifts the pen: what is not sent waits for the next stroke for a while. */
  end() {
    const { strokes } = this;
    if (!strokes?.isDown) return;
    clearTimeout(this.hold);
    strokes.lift(true);
    strokes.timer = setTimeout(() => this.flush(), this.rests);
  }

  /** Sends what is written and not yet sent. */
  flush() {
    const { strokes } = this;
    if (!strokes) return;
    if (strokes.isDown) this.end();
    strokes.open().texts.forEach((text) => this.send(strokes, text));
    this.drop();
  }

  /** Drops the stroke that is begun, as far as it is not sent, and keeps those before it. */
  cancel() {
    const { strokes } = this;
    if (!strokes?.isDown) return;
    strokes.lift(false);
    if (strokes.knots.length) strokes.timer = setTimeout(() => this.flush(), this.rests);
    else this.drop();
  }

  drop() {
    clearTimeout(this.strokes?.timer);
    this.strokes = null;
    this.board.painter.soon();
  }

  /** Takes back the stroke that is drawn, or the last one if no part of it is sent; whether it was so. Else what is open is sent, for a step of
   * undo to take back. */
  undo() {
    const { strokes } = this;
    if (!strokes) return false;
    if (strokes.isDown) {
      this.cancel();
      return true;
    }
    if (strokes.takeBack()) this.board.painter.soon();
    else if (strokes.isMore) this.flush();
    else this.drop();
    return !strokes.isMore || this.strokes !== null;
  }

  /** What is not sent, as it will be.
   * @returns {Shape[]} */
  ghosts() {
    return this.strokes?.page === this.board.session.board.page ? this.strokes.open().texts.map(({ text }) => placed(text, 0)) : [];
  }
}
