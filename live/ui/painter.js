/** The canvas of the sheet: its colours, and a frame for each change, which the look in view paints. */
import { CellLayer } from './celllayer.js';
import { DAY, NIGHT, ON_WHITE, colourOf } from './colours.js';
import { paintGround } from './ground.js';
import { InkGhosts } from './inkghosts.js';
import { InkLayer } from './inklayer.js';
import { CELL_WIDE } from './inksigns.js';

/** @typedef {{ session: import('./session.js').Session, view: import('./view.js').View, layout: import('./layout.js').Layout,
 *   hand: import('./hand.js').Hand, pen: import('./pen.js').Pen, style: import('./style.js').Style, notes: import('./notes.js').Notes, faces: import('./faces.js').Faces }} Parts */

/** The page's colours that are read from its style. */
const NAMES = ['paper', 'desk', 'ink', 'quiet', 'dot', 'rule', 'accent', 'soft', 'bad', 'bad-soft', 'edge'];

/** Where the page keeps the look, and whether it is light or dark. */
const LOOK = 'wb-look', LIGHT = 'wb-theme';

export class Painter {
  /** @param {HTMLCanvasElement} canvas */
  constructor(canvas) {
    this.canvas = canvas;
    this.brush = /** @type {CanvasRenderingContext2D} */ (canvas.getContext('2d', { alpha: false }));
    this.still = matchMedia('(prefers-reduced-motion: reduce)');
    /** Read in `readColours` alone: a browser tells of no change that was read before. */
    this.night = matchMedia('(prefers-color-scheme: dark)');
    this.isDark = false;
    /** Whether the page is shown as ink, or by its characters, as they are proved. */
    this.isInk = localStorage.getItem(LOOK) !== 'cells';
    /** `light`, `dark`, or as the system is. */
    this.theme = localStorage.getItem(LIGHT) ?? '';
    /** @type {Record<string, string>} */
    this.colours = {};
    this.font = '';
    this.isPlanned = false;
    /** Another number where everything looks different. */
    this.look = 0;
    /** Paints over the sheet, last: what others point at.
     * @type {(painter: Painter) => void} */
    this.over = () => {};
    /** Set before anything is painted.
     * @type {Parts} */
    this.parts = /** @type {any} */ (null);
    this.cells = new CellLayer(this);
    this.ink = new InkLayer(this);
    this.ghosts = new InkGhosts(this);
    this.readColours();
  }

  /** Whether the page is dark. */
  isNight() {
    return this.isDark;
  }

  /** @param {string} theme */
  setTheme(theme) {
    this.theme = theme;
    localStorage.setItem(LIGHT, theme);
  }

  /** @param {boolean} isInk */
  setLook(isInk) {
    this.isInk = isInk;
    localStorage.setItem(LOOK, isInk ? 'ink' : 'cells');
    this.soon();
  }

  /** Reads the colours of the page's style, by day or by night. */
  readColours() {
    this.isDark = this.theme ? this.theme === 'dark' : this.night.matches;
    document.documentElement.dataset.theme = this.isDark ? 'dark' : 'light';
    const style = getComputedStyle(document.documentElement);
    this.colours = Object.fromEntries(NAMES.map((name) => [name, style.getPropertyValue(`--${name}`).trim()]));
    this.font = style.getPropertyValue('--mono');
    this.repaint();
  }

  /** Everything looks different. */
  repaint() {
    this.look += 1;
    this.soon();
  }

  /** How wide an M is in a font of this size.
   * @param {string} size */
  measure(size) {
    this.brush.font = `${size} ${this.font}`;
    return this.brush.measureText('M').width;
  }

  /** The colour of a member: the one that it chose, else one that nobody here has.
   * @param {number} source */
  tintOf(source, isNight = this.isNight()) {
    const colour = this.parts?.notes.told.colours.get(source) ?? this.parts?.faces?.colours.get(source);
    return colour === undefined ? colourOf(source, isNight) : (isNight ? NIGHT : DAY)[colour];
  }

  /** What is saved and printed has the colours of the day.
   * @returns {import('./inkpaint.js').Shades} */
  get byDay() {
    return { isNight: () => false, colours: ON_WHITE, tintOf: (source) => this.tintOf(source, false) };
  }

  soon() {
    if (!this.isPlanned) requestAnimationFrame((now) => this.paint(now));
    this.isPlanned = true;
  }

  /** @param {number} now */
  paint(now) {
    this.isPlanned = false;
    this.clear();
    if (this.isInk) {
      paintGround(this.brush, this.parts.view, this.colours, this.parts.notes.paperOf(this.parts.session.board.page));
      this.ink.paint();
      this.ghosts.paint();
    } else {
      this.ink.takeSome();
      this.cells.paint(now);
    }
    this.over(this);
  }

  /** Makes the canvas as large as the sheet, and empties it. */
  clear() {
    const { canvas, brush } = this, { width: across, height: down, size } = this.parts.view, ratio = devicePixelRatio;
    const width = Math.round(across * ratio), height = Math.round(down * ratio);
    if (canvas.width !== width || canvas.height !== height) [canvas.width, canvas.height] = [width, height];
    brush.setTransform(ratio, 0, 0, ratio, 0, 0);
    brush.fillStyle = this.colours.paper;
    brush.fillRect(0, 0, width, height);
    this.setFont(brush, size);
  }

  /** @param {CanvasRenderingContext2D} brush @param {number} size */
  setFont(brush, size) {
    brush.font = `${size}px ${this.font}`;
    [brush.textAlign, brush.textBaseline] = ['center', 'middle'];
  }

  /** Paints in units of the page.
   * @param {(brush: CanvasRenderingContext2D) => void} act */
  inUnits(act) {
    const { brush, parts: { view } } = this, [left, top] = view.corner(), scale = view.wide / CELL_WIDE;
    brush.save();
    brush.translate(-left, -top);
    brush.scale(scale, scale);
    act(brush);
    brush.restore();
  }
}
