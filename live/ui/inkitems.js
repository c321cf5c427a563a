/** The items of a page: each ink with those that go on from it, and each plain drawing, in the order of painting (docs/INK.md, "Going on"). */
import { inkOf } from './ink.js';
import { isStroke, isTyped } from './inkkinds.js';
import { CELL_HIGH, CELL_WIDE, OWN } from './inksigns.js';
import { isJoined, joined } from './inkwriting.js';

/** @typedef {import('./types.js').Drawing} Drawing */
/** @typedef {import('./types.js').LineShape} LineShape */
/** @typedef {import('./ink.js').Ink} Ink */
/** @typedef {import('./ink.js').Point} Point */
/** What is painted, chosen, moved and erased as one. The kind is that of its first ink, or `line`, `frame` or `text` of plain drawings; the
 * drawings follow one another by their numbers. A plain line has the flag 1 if it has a head at its end, and its points are the middles
 * of cells.
 * @typedef {{ kind: string, source: number, drawings: Drawing[], colour: number, width: number, flag: number, points: Point[],
 *   letters: string }} Item */

/** A drawing that is shown, its ink if it is one, and its item.
 * @typedef {{ drawing: Drawing, ink: Ink | null, item: Item | null }} Held */

/** A multiple of this number begins another item, once the one before it has as many inks. So what is deleted changes the items about it alone. */
const CUT = 128;

/** Lines of one stroke of cells were drawn within this many microseconds of one another. */
const TOGETHER = 500_000n;

/** Widths of plain lines, by the glyph; and the glyphs that are heads. */
const PLAIN_WIDTH = 2, THICK = '#', THICK_WIDTH = 5, HEADS = '<>^v';

/** The flag of a plain line that has a head at its end. */
const WITH_HEAD = 1;

/** The middle of a cell in units.
 * @type {(x: number, y: number) => Point} */
const middle = (x, y) => ({ x: (x + 0.5) * CELL_WIDE, y: (y + 0.5) * CELL_HIGH });

/** The item that begins with a drawing.
 * @type {(held: Held) => Item} */
function begun({ drawing, ink }) {
  const { source } = drawing, drawings = [drawing];
  if (ink) {
    const { kind, colour, width, flag, points, letters } = ink;
    return { kind, source, drawings, colour, width, flag, points, letters };
  }
  const plain = { source, drawings, colour: OWN, width: PLAIN_WIDTH, flag: 0 };
  if (drawing.op === 'text') return { ...plain, kind: 'text', points: [{ x: drawing.x * CELL_WIDE, y: drawing.y * CELL_HIGH }], letters: drawing.text };
  const points = [middle(drawing.x0, drawing.y0), middle(drawing.x1, drawing.y1)];
  return { ...plain, kind: drawing.op, width: drawing.glyph === THICK ? THICK_WIDTH : PLAIN_WIDTH, points, letters: '' };
}

/** Whether an ink belongs to the item before it.
 * @type {(item: Item, ink: Ink) => boolean} */
function isOneWith({ kind, colour, width }, ink) {
  if (!ink.goesOn || ink.colour !== colour) return false;
  return isStroke(ink.kind) ? ink.kind === kind && ink.width === width : isTyped({ kind });
}

/** Whether a drawing is a head: a line of no length with the glyph of one.
 * @type {(drawing: LineShape) => boolean} */
const isHead = ({ x0, y0, x1, y1, glyph }) => x0 === x1 && y0 === y1 && HEADS.includes(glyph);

/** Whether a plain line belongs to the item of those before it.
 * @type {(item: Item, line: Drawing & LineShape) => boolean} */
function lengthens({ drawings, flag }, line) {
  const before = drawings[drawings.length - 1];
  if (before.op !== 'line' || line.x0 !== before.x1 || line.y0 !== before.y1 || flag === WITH_HEAD) return false;
  const passed = BigInt(line.time) - BigInt(before.time), isNear = passed <= TOGETHER && passed >= -TOGETHER;
  return isNear && (isHead(line) ? drawings.length === 1 : line.glyph === before.glyph);
}

/** Whether the drawing of the next number belongs to an item.
 * @type {(item: Item, held: Held) => boolean} */
function belongs(item, { drawing, ink }) {
  if (drawing.seq % CUT === 0 && item.drawings.length >= CUT) return false;
  return ink ? isOneWith(item, ink) : drawing.op === 'line' && lengthens(item, drawing);
}

/** Adds a drawing that belongs to an item.
 * @type {(item: Item, held: Held) => void} */
function add(item, { drawing, ink }) {
  // as long as an item has one ink, their points are the same
  if (item.drawings.length === 1) item.points = [...item.points];
  item.drawings.push(drawing);
  if (ink && isStroke(ink.kind)) addPoints(item.points, ink.points);
  else if (ink) item.letters += ink.letters;
  else if (drawing.op === 'line' && isHead(drawing)) item.flag = WITH_HEAD;
  else if (drawing.op === 'line') item.points.push(middle(drawing.x1, drawing.y1));
}

/** The pen is lifted to points that do not begin at the last one.
 * @type {(points: Point[], more: Point[]) => void} */
function addPoints(points, [first, ...others]) {
  const last = points[points.length - 1];
  if (first.x !== last.x || first.y !== last.y) points.push({ ...first, up: true });
  points.push(...others);
}

/** Which of two items is painted first: by time, source and number, as a host shows drawings.
 * @type {(a: Item, b: Item) => number} */
export function byPainting({ drawings: [a] }, { drawings: [b] }) {
  // times are decimal digits, of up to 64 bits
  if (a.time !== b.time) return a.time.length - b.time.length || (a.time < b.time ? -1 : 1);
  return a.source - b.source || a.seq - b.seq;
}

/** How many items of a list are painted before one.
 * @type {(list: Item[], item: Item) => number} */
function placeOf(list, item) {
  const last = list[list.length - 1];
  let [low, high] = [0, list.length];
  // most come last
  if (last && byPainting(last, item) < 0) return high;
  while (low < high) {
    const half = (low + high) >> 1;
    if (byPainting(list[half], item) < 0) low = half + 1;
    else high = half;
  }
  return low;
}

/** The items of what a page shows, as it changes. An item that a change leaves as it was is the same object after it. */
export class Items {
  constructor() {
    /** In the order of painting.
     * @type {Item[]} */
    this.list = [];
    /** What is shown of each source, by number.
     * @type {Map<number, Map<number, Held>>} */
    this.shown = new Map();
  }

  /** @param {number} source @param {number} seq */
  held(source, seq) {
    return this.shown.get(source)?.get(seq);
  }

  /** The item that has a drawing, by its name.
   * @param {number} source @param {number} seq */
  itemOf(source, seq) {
    return this.held(source, seq)?.item ?? undefined;
  }

  /** The items of the group of an item, in the order of their numbers; the item alone if it is of none.
   * @param {Item} item @returns {Item[]} */
  groupOf(item) {
    const { source } = item, group = [item], before = () => isJoined(group[0].drawings[0]) && this.itemOf(source, group[0].drawings[0].seq - 1);
    for (let each = before(); each; each = before()) group.unshift(each);
    const after = () => this.itemOf(source, group[group.length - 1].drawings[group[group.length - 1].drawings.length - 1].seq + 1);
    for (let each = after(); each && isJoined(each.drawings[0]); each = after()) group.push(each);
    return group;
  }

  /** Some items in their order, but for groups: their items follow one another. Each has its drawings, and is joined to the one before it in this list alone.
   * @param {Item[]} [items] @returns {{ item: Item, drawings: Drawing[] }[]} */
  inGroups(items = this.list) {
    const some = new Set(items), all = [...new Set(items.flatMap((item) => this.groupOf(item).filter((each) => some.has(each))))];
    return all.map((item, i) => {
      const { source, drawings: [first, ...others] } = item, isAfter = i > 0 && this.itemOf(source, first.seq - 1) === all[i - 1];
      return { item, drawings: [/** @type {Drawing} */ ({ ...first, ...joined(first, isJoined(first) && isAfter) }), ...others] };
    });
  }

  /** Has all of these shown, and nothing else. Gives what changed of the items.
   * @param {Drawing[]} drawings @returns {{ gone: Item[], come: Item[] }} */
  show(drawings) {
    const stays = new Set(drawings.map(({ source, seq }) => this.held(source, seq)));
    const gone = [...this.shown.values()].flatMap((numbers) => [...numbers.values()].filter((held) => !stays.has(held)));
    return this.change(gone.map(({ drawing }) => drawing), stays.has(undefined) ? drawings.filter(({ source, seq }) => !this.held(source, seq)) : []);
  }

  /** Some drawings are shown no more, and others are shown now, perhaps in the place of one of the same name. Gives what changed of the items.
   * @param {Drawing[]} gone @param {Drawing[]} come @returns {{ gone: Item[], come: Item[] }} */
  change(gone, come) {
    /** @type {Set<Item>} */
    const dissolved = new Set();
    for (const { source, seq } of gone) {
      this.dissolve(this.itemOf(source, seq), dissolved);
      this.shown.get(source)?.delete(seq);
    }
    for (const drawing of come) {
      const { source, seq } = drawing, before = this.itemOf(source, seq - 1), held = { drawing, ink: inkOf(drawing), item: null };
      this.dissolve(this.itemOf(source, seq), dissolved);
      this.shown.set(source, (this.shown.get(source) ?? new Map()).set(seq, held));
      if (before && belongs(before, held)) this.dissolve(before, dissolved);
    }
    const loose = [...come, ...[...dissolved].flatMap(({ drawings }) => drawings)].sort((a, b) => a.source - b.source || a.seq - b.seq);
    const made = loose.flatMap(({ source, seq }) => this.make(source, seq, dissolved));
    this.order(dissolved, made);
    return { gone: [...dissolved], come: made };
  }

  /** Takes an item apart.
   * @param {Item | null | undefined} item @param {Set<Item>} dissolved */
  dissolve(item, dissolved) {
    if (!item) return;
    dissolved.add(item);
    for (const { source, seq } of item.drawings) {
      const held = this.held(source, seq);
      if (held) held.item = null;
    }
  }

  /** Makes the items of a drawing that has none yet and of those that follow it, as far as these have none, or come to belong to others.
   * @param {number} source @param {number} first @param {Set<Item>} dissolved @returns {Item[]} */
  make(source, first, dissolved) {
    /** @type {Item[]} */
    const made = [];
    let item = /** @type {Item | null} */ (null);
    for (let seq = first, held = this.held(source, seq); held; held = this.held(source, seq += 1)) {
      const isMore = item !== null && belongs(item, held);
      if (held.item && !isMore) break;
      this.dissolve(held.item, dissolved);
      if (item && isMore) add(item, held);
      else made.push(item = begun(held));
      held.item = item;
    }
    return made;
  }

  /** Takes items out of the list, and puts others in at their places.
   * @param {Iterable<Item>} gone @param {Item[]} come */
  order(gone, come) {
    this.list = [...this.list];
    for (const item of gone) this.list.splice(placeOf(this.list, item), 1);
    for (const item of come.sort(byPainting)) this.list.splice(placeOf(this.list, item), 0, item);
  }
}

/** The items of drawings, in the order of painting.
 * @type {(drawings: Drawing[]) => Item[]} */
export function itemsOf(drawings) {
  const items = new Items();
  items.show(drawings);
  return items.list;
}
