/** The colours, widths and letters that are chosen, and the row that offers them. */
import { BRIGHT, COLOURS, DAY, NIGHT, OFFERED } from './colours.js';
import { $, make, say } from './dom.js';
import { OWN } from './inksigns.js';
import { wording } from './language.js';

/** What is drawn with: a colour and a width; of the highlighter and of notes a colour, and of the highlighter a width; of letters the size and
 * the font; whether lines are dashed, and arrows have two heads; how shapes are filled; whether the eraser takes what it touches alone; and whether the pen is as
 * wide however fast it goes.
 * @typedef {{ colour: number, width: number, bright: number, broad: number, size: number, font: number, isDashed: boolean, hasTwo: boolean, fill: number,
 *   cuts: boolean, isEven: boolean }} Look */

/** Where the page keeps it. */
const KEPT = 'wb-style';

/** @type {Look} */
const USUAL = { colour: 0, width: 2, bright: 3, broad: 6, size: 3, font: 0, isDashed: false, hasTwo: false, fill: 0, cuts: false, isEven: true };

/** The widths that are offered, of strokes and of the highlighter, and points of their marks. */
const WIDTHS = [[1, 'fine'], [2, 'normal'], [4, 'thick'], [6, 'veryThick']], BROAD = [[5, 'fine'], [6, 'normal'], [7, 'thick'], [8, 'veryThick']], MARKS = [5, 8, 13, 19];

/** What can be chosen for each tool. */
const LINES = ['colours', 'widths', 'looks'], /** @type {Record<string, string[]>} */ ROWS = { pen: ['colours', 'widths', 'looks'], marker: ['colours', 'widths'],
  line: LINES, arrow: LINES, frame: LINES, ellipse: LINES, diamond: LINES, note: ['colours'], text: ['colours', 'fonts'], erase: ['looks'] };

/** What can be switched for each tool. */
const SHAPES = ['dashed', 'filled', 'full'], /** @type {Record<string, string[]>} */ LOOKS = { pen: ['thinner'], line: ['dashed'], arrow: ['dashed', 'twoHeads'], frame: SHAPES,
  ellipse: SHAPES, diamond: SHAPES, erase: ['cuts'] };

/** The sizes and the fonts of letters. */
const SIZES = [[1, 'S', 'small'], [3, 'M', 'middle'], [5, 'L', 'large'], [7, 'XL', 'veryLarge']], FONTS = [[0, 'Aa', 'plain'], [2, 'x²', 'formula'], [1, '{}', 'code']];

export class Style {
  /** @param {import('./whiteboard.js').Whiteboard} board */
  constructor(board) {
    this.board = board;
    /** @type {Look} */
    $('style-open').addEventListener('click', () => this.open(!$('style').classList.contains('open')));
    $('sheet').addEventListener('pointerdown', () => this.open(false));
    this.look = { ...USUAL, ...JSON.parse(localStorage.getItem(KEPT) ?? '{}') };
  }

  /** Chooses something for the tool in hand; where ink is selected, that becomes so.
   * @param {Partial<Look>} change */
  set(change) {
    if (this.board.changing.isOn) return this.board.changing.restyle(change);
    this.board.pen.flush();
    Object.assign(this.look, change);
    localStorage.setItem(KEPT, JSON.stringify(this.look));
    this.show();
    return undefined;
  }

  /** Chooses a colour for the tool in hand: of the highlighter and of notes it is another.
   * @param {number} colour */
  setColour(colour) {
    this.set(this.isBright() ? { bright: colour } : { colour });
  }

  isBright() {
    return ['marker', 'note'].includes(this.board.hand.tool);
  }

  /** @param {number} colour */
  tintOf(colour) {
    const { painter, session } = this.board;
    return colour === OWN ? painter.tintOf(session.hello.me) : (painter.isNight() ? NIGHT : DAY)[colour];
  }

  /** @param {number} colour */
  brightOf(colour) {
    return BRIGHT[colour] ?? this.tintOf(colour);
  }

  /** The rows of what can be chosen for the tool in hand, or for what is selected, and how that looks.
   * @returns {{ rows: string[], looks: string[], look: Look, isMarker: boolean }} */
  offered() {
    const { hand, changing } = this.board, { tool } = hand;
    if (!changing.isOn) return { rows: ROWS[tool] ?? [], looks: LOOKS[tool] ?? [], look: this.look, isMarker: tool === 'marker' };
    const items = hand.chosenItems(), [{ colour = 0, width = 0, flag = 0, kind = '' } = {}] = items, has = (/** @type {string} */ kinds) => items.some((item) => kinds.includes(item.kind) && item.kind.length === 1);
    const look = { colour, bright: colour, width, broad: width, size: width, font: kind === 't' ? flag : 0, isDashed: Boolean(flag & 4), hasTwo: kind === 'l' && (flag & 3) === 3, fill: flag & 3, cuts: false, isEven: true };
    const rows = [...has('svhlrodnt') ? ['colours'] : [], ...has('svhlrod') ? ['widths'] : [], ...has('t') ? ['fonts'] : [], ...has('lrod') ? ['looks'] : []];
    const looks = ['dashed', ...has('rod') ? SHAPES.slice(1) : [], ...items.some((item) => item.kind === 'l' && item.flag & 1) ? ['twoHeads'] : []];
    return { rows, looks, look, isMarker: items.every((item) => item.kind === 'h') };
  }

  /** On a narrow window one button has the colour and the width, and opens the rows.
   * @param {number} colour @param {any[][]} widths @param {number} width @param {boolean} isBright */
  showButton(colour, widths, width, isBright) {
    const button = $('style-open'), at = Math.max(0, widths.findIndex(([each]) => each === width));
    button.style.setProperty('--c', isBright ? BRIGHT[colour] : this.tintOf(colour));
    button.style.setProperty('--w', `${MARKS[at] + 7}px`);
    button.setAttribute('aria-label', wording('colourAndWidthAre', { colour: wording(COLOURS[colour]), width: wording(widths[at][1]) }));
  }

  /** Opens or closes the rows on a narrow window.
   * @param {boolean} is */
  open(is) {
    $('style').classList.toggle('open', is);
    $('style-open').setAttribute('aria-expanded', String(is));
  }

  /** Shows what can be chosen. */
  show() {
    const { rows, looks, look, isMarker } = this.offered(), bar = $('style'), isBright = this.isBright();
    bar.hidden = !rows.length && this.board.painter.isInk;
    this.showButton(isBright ? look.bright : look.colour, isMarker ? BROAD : WIDTHS, isMarker ? look.broad : look.width, isBright);
    for (const row of ['colours', 'widths', 'fonts', 'looks']) bar.querySelector(`.${row}`).hidden = !rows.includes(row);
    bar.querySelector('.bar').hidden = rows.length < 2;
    /** @param {string} row @param {any[]} buttons */
    const fill = (row, buttons) => refill(bar.querySelector(row), buttons);
    fill('.colours', OFFERED.map((colour) => {
      const button = radio(wording(COLOURS[colour]), colour === (isBright ? look.bright : look.colour), () => this.setColour(colour));
      button.style.setProperty('--c', isBright ? BRIGHT[colour] : this.tintOf(colour));
      return button;
    }));
    fill('.widths', (isMarker ? BROAD : WIDTHS).map(([width, name], i) => {
      const button = radio(named(name), width === (isMarker ? look.broad : look.width), () => this.set(isMarker ? { broad: Number(width) } : { width: Number(width) }));
      button.style.setProperty('--w', `${MARKS[i]}px`);
      return button;
    }));
    fill('.fonts', [...SIZES.map(([size, text, name]) => radio(named(name), look.size === size, () => this.set({ size: Number(size) }), text)),
      ...FONTS.map(([font, text, name]) => radio(named(name), look.font === font, () => this.set({ font: Number(font) }), text))]);
    /** @type {Record<string, () => any>} */
    const toggles = { dashed: () => toggle(wording('dashed'), '┄', look.isDashed, () => this.set({ isDashed: !look.isDashed })),
      filled: () => toggle(wording('filled'), '▨', look.fill === 1, () => this.set({ fill: look.fill === 1 ? 0 : 1 })),
      full: () => toggle(wording('full'), '■', look.fill === 2, () => this.set({ fill: look.fill === 2 ? 0 : 2 })),
      twoHeads: () => toggle(wording('twoHeads'), '↔', look.hasTwo, () => this.set({ hasTwo: !look.hasTwo })),
      cuts: () => toggle(wording('cuts'), '⌿', look.cuts, () => this.set({ cuts: !look.cuts })),
      thinner: () => toggle(wording('thinner'), '∿', !look.isEven, () => this.set({ isEven: !look.isEven })) };
    fill('.looks', looks.map((name) => toggles[name]()));
  }
}

/** @type {(key: any) => string} */
const named = (key) => wording(key);

/** Puts other buttons into a row. If one of this name had the focus, it has it again.
 * @type {(row: any, buttons: any[]) => void} */
export function refill(row, buttons) {
  const name = row.contains(document.activeElement) ? document.activeElement?.getAttribute('aria-label') : null;
  row.replaceChildren(...buttons);
  if (name) buttons.find((button) => button.getAttribute('aria-label') === name)?.focus();
}

/** A button of which one of a row is chosen.
 * @type {(name: string, is: boolean, act: () => void, text?: string | number) => any} */
export function radio(name, is, act, text = '') {
  const button = Object.assign(make('button', String(text)), { type: 'button', title: name });
  button.setAttribute('role', 'radio');
  button.setAttribute('aria-label', name);
  button.setAttribute('aria-checked', String(is));
  button.addEventListener('click', () => { act(); say(name); });
  return button;
}

/** @type {(name: string, text: string, is: boolean, act: () => void) => any} */
function toggle(name, text, is, act) {
  const button = Object.assign(make('button', text), { type: 'button', title: name });
  button.setAttribute('aria-label', name);
  button.setAttribute('aria-pressed', String(is));
  button.addEventListener('click', act);
  return button;
}
