/** Paints items on a canvas, in units: what is on the sheet, what is saved as a picture, and what is not sent yet. */
import { BRIGHT, DAY, NIGHT } from './colours.js';
import { boxOfLetters, fontOf, standOf, standsOf } from './inkfonts.js';
import { KINDS, broadOf, fillOf, isClosed, isLetters, isLine, isStroke } from './inkkinds.js';
import { MARKER, NOTE, TINT } from './inkmeasures.js';
import { outlineOf } from './inkoutline.js';
import { dashesOf, wayOf } from './inkpaths.js';
import { CELL_WIDE, OWN, WIDTHS } from './inksigns.js';

/** @typedef {import('./ink.js').Point} Point */
/** @typedef {import('./inkitems.js').Item} Item */
/** The least and the greatest x and y, in units.
 * @typedef {{ x0: number, y0: number, x1: number, y1: number }} Box */
/** How an item is painted: so many points of the screen a cell; in another colour than its own; in a picture without a ground, under
 * what is there for a highlighter; and the box that is seen, if not all is.
 * @typedef {{ wide: number, over?: string, isPicture?: boolean, box?: Box }} Paint */

/** How a page is coloured: by day or by night, its own colours, and those of members.
 * @typedef {{ isNight: () => boolean, colours: Record<string, string>, tintOf: (source: number) => string }} Shades */

/** @type {(a: Box, b: Box) => boolean} */
export const overlap = (a, b) => a.x0 <= b.x1 && a.x1 >= b.x0 && a.y0 <= b.y1 && a.y1 >= b.y0;

/** @type {WeakMap<Item, Path2D[]>} */
const known = new WeakMap();

/** The paths of an item: of a stroke one for each part, since the edges of crossings would show within one.
 * @type {(item: Item) => Path2D[]} */
function pathsOf(item) {
  const found = known.get(item);
  if (found) return found;
  const way = wayOf(item), paths = (isStroke(item.kind) && !KINDS[item.kind].isUnder ? way.split(/(?=M)/) : [way]).map((each) => new Path2D(each));
  known.set(item, paths);
  return paths;
}

/** @type {WeakMap<Item, Box>} */
const boxes = new WeakMap();

/** The box about what an item paints.
 * @type {(item: Item) => Box} */
export function boxOf(item) {
  const found = boxes.get(item) ?? boxMade(item);
  boxes.set(item, found);
  return found;
}

/** @type {(item: Item) => Box} */
function boxMade(item) {
  const { kind, points, width } = item, { form } = KINDS[kind];
  if (isLetters(item)) return boxOfLetters(item);
  // a curve goes past its points, and the head of an arrow lies beside its line
  const by = form === 'closed' ? WIDTHS[width] : form === 'stroke' ? WIDTHS[width] * broadOf(item) + 40 : 100 + WIDTHS[width] * 4;
  return boxAbout(points, by);
}

/** The box about what an item leaves on the paper: of writing as wide as its line, where the box for painting is larger.
 * @type {(item: Item) => Box} */
export function closeBoxOf(item) {
  const { kind, points, width } = item, isThin = isStroke(kind) || isLine(item);
  return isThin ? boxAbout(points, (WIDTHS[width] * broadOf(item)) / 2) : boxOf(item);
}

/** The box about points, and so far about it.
 * @type {(points: Point[], by: number) => Box} */
export function boxAbout(points, by) {
  const box = { x0: Infinity, y0: Infinity, x1: -Infinity, y1: -Infinity };
  for (const { x, y } of points) {
    box.x0 = Math.min(box.x0, x - by);
    box.y0 = Math.min(box.y0, y - by);
    box.x1 = Math.max(box.x1, x + by);
    box.y1 = Math.max(box.y1, y + by);
  }
  return box;
}

/** The box about all items, or null where there are none.
 * @type {(items: Item[], box?: (item: Item) => Box) => Box | null} */
export function boxAboutAll(items, box = boxOf) {
  return items.length ? boxAbout(items.map(box).flatMap(({ x0, y0, x1, y1 }) => [{ x: x0, y: y0 }, { x: x1, y: y1 }]), 0) : null;
}

/** Items as they are painted: those of the highlighter under all others.
 * @type {(items: Item[]) => Item[]} */
export const inOrder = (items) => [...items.filter(({ kind }) => KINDS[kind].isUnder), ...items.filter(({ kind }) => !KINDS[kind].isUnder)];

export class InkPaint {
  /** @param {Shades} shades */
  constructor(shades) {
    this.shades = shades;
  }

  /** The colour of an item.
   * @param {Item} item */
  colourOf({ colour, source, kind }) {
    if (KINDS[kind].isLink) return this.shades.colours.accent;
    if (colour === OWN) return this.shades.tintOf(source);
    return (KINDS[kind].isUnder ? BRIGHT : this.shades.isNight() ? NIGHT : DAY)[colour];
  }

  /** @param {CanvasRenderingContext2D} g @param {Item} item @param {Paint} how */
  paint(g, item, how) {
    const { kind, width } = item, { isUnder, isPressed } = KINDS[kind], colour = how.over ?? this.colourOf(item);
    g.strokeStyle = g.fillStyle = colour;
    g.lineCap = g.lineJoin = 'round';
    g.lineWidth = Math.max(WIDTHS[width], CELL_WIDE / how.wide);
    if (isUnder) this.paintBroad(g, item, how);
    else if (isPressed) paintPressed(g, item, CELL_WIDE / how.wide);
    else if (isClosed(kind)) this.paintClosed(g, item, colour);
    else if (!isLetters(item)) strokeAll(g, item);
    if (item.letters) this.paintLetters(g, item, colour, how.box);
  }

  /** A highlighter lies under all other ink: in a picture under what is there, else so that what is there stays dark, or light.
   * @param {CanvasRenderingContext2D} g @param {Item} item @param {Paint} how */
  paintBroad(g, item, { over, isPicture }) {
    g.globalCompositeOperation = over ? 'source-over' : isPicture ? 'destination-over' : this.shades.isNight() ? 'lighten' : 'multiply';
    g.globalAlpha = over ? 0.6 : MARKER.dark;
    g.lineWidth = WIDTHS[item.width] * broadOf(item);
    strokeAll(g, item);
    g.globalAlpha = 1;
    g.globalCompositeOperation = 'source-over';
  }

  /** @param {CanvasRenderingContext2D} g @param {Item} item @param {string} colour */
  paintClosed(g, item, colour) {
    const [path] = pathsOf(item), { isNote } = KINDS[item.kind], fill = fillOf(item);
    if (isNote) {
      g.fillStyle = this.shades.colours.paper;
      g.fill(path);
    }
    g.fillStyle = fill === 2 ? colour : BRIGHT[item.colour] ?? colour;
    g.globalAlpha = isNote ? NOTE[this.shades.isNight() ? 'night' : 'day'] : fill === 2 ? 1 : TINT;
    if (fill) g.fill(path);
    g.globalAlpha = 1;
    if (!isNote) strokeAll(g, item);
  }

  /** The lines of an item that may be seen.
   * @param {CanvasRenderingContext2D} g @param {Item} item @param {string} colour @param {Box} [box] */
  paintLetters(g, item, colour, box) {
    const { colours } = this.shades, { font, size } = standOf(item), { isNote, isLink } = KINDS[item.kind];
    g.font = fontOf(font, size);
    g.fillStyle = isNote ? colours.ink : fillOf(item) === 2 ? colours.paper : colour;
    g.textBaseline = 'middle';
    for (const { line, x, y, isFromRight, align } of standsOf(item)) {
      if (box && (y + size < box.y0 || y - size > box.y1)) continue;
      [g.direction, g.textAlign] = [isFromRight ? 'rtl' : 'ltr', align];
      g.fillText(line, x, y);
    }
    if (!isLink) return;
    const { x0, x1, y1 } = boxOf(item);
    g.fillRect(x0, y1 - size * 0.16, x1 - x0, 5);
  }
}

/** @type {(g: CanvasRenderingContext2D, item: Item) => void} */
function strokeAll(g, item) {
  g.setLineDash(dashesOf(item));
  pathsOf(item).forEach((path) => g.stroke(path));
  g.setLineDash([]);
}

/** @type {WeakMap<Item, Path2D>} */
const outlines = new WeakMap();

/** A stroke that is wider where the pen was pressed more, and nowhere thinner than told.
 * @type {(g: CanvasRenderingContext2D, item: Item, least: number) => void} */
function paintPressed(g, item, least) {
  const path = outlines.get(item) ?? new Path2D(outlineOf(item));
  outlines.set(item, path);
  g.fill(path);
  g.lineWidth = least;
  strokeAll(g, item);
}
