/** What was erased of a page, a row for each step, by whom and when; it comes back by one click. And the page as it was. */
import { nameOf } from './cells.js';
import { $, make, say } from './dom.js';
import { inkOf } from './ink.js';
import { KINDS } from './inkkinds.js';
import { itemsOf } from './inkitems.js';
import { isAgain } from './inkwriting.js';
import { renew, write } from './keyed.js';
import { LOCALE, wording } from './language.js';

/** @typedef {import('./types.js').Board} Board */
/** @typedef {import('./types.js').Drawing} Drawing */
/** @typedef {import('./types.js').Erased} Erased */
/** What one step erased: who, when in microseconds, and the drawings.
 * @typedef {{ by: number, at: number, drawings: Erased[] }} Row */

/** Microseconds of a second. Deletes of one step come within one of one another, also on a slow machine; what a hand erases so soon again is a step with it.
 * And those that a hand needs at least from one gesture to the next. */
const SECOND = 1_000_000, PAUSE = 200_000;

/** How many times as large as a page at a glance the page as it was is. */
const LARGE = 3;

/** Rows that are listed. */
const MOST_ROWS = 50;

/** If somebody else erases as many drawings as this or more at once, the page offers to bring them back; and milliseconds for which it does. */
const MANY = 5, OFFERED = 20_000;

/** What a drawing is, in a word or by its letters.
 * @param {Drawing} drawing */
export function kindOf(drawing) {
  const letters = lettersOf(drawing);
  return letters ? wording('quoted', { letters: letters.slice(0, 16) }) : wording(KINDS[inkOf(drawing)?.kind ?? drawing.op].name);
}

/** @param {Drawing} drawing */
const lettersOf = (drawing) => inkOf(drawing)?.letters ?? (drawing.op === 'text' ? drawing.text : '');

/** Whether it is letters.
 * @param {Drawing} drawing */
export const hasLetters = (drawing) => lettersOf(drawing) !== '';

/** What was erased of a page, the latest step first. What was drawn anew elsewhere, as by a move, was not erased.
 * @type {(board: Board) => Row[]} */
export function rowsOf({ drawops, hidden }) {
  const found = new Map([...drawops, ...hidden].map((drawing) => [nameOf(drawing), drawing])), /** @type {(Row & { last: number, before: string | null, drawn: Drawing[] })[]} */ rows = [];
  const erased = hidden.flatMap((drawing) => (drawing.erased ? [{ drawing, by: drawing.erased[0], seq: drawing.erased[1], at: Number(drawing.erased[2]), before: drawing.erased[3] }] : []));
  for (const { drawing, by, seq, at, before } of erased.sort((a, b) => a.by - b.by || a.seq - b.seq)) {
    const row = rows[rows.length - 1], isMore = row?.by === by && at - row.last <= SECOND && before === 'delete' && !isAfter(row, drawing, at);
    if (isMore) [row.last, row.drawings] = [at, [...row.drawings, drawing]];
    else rows.push({ by, at, last: at, drawings: [drawing], before, drawn: before === 'delete' ? [] : drawnBefore(found, by, seq) });
  }
  const isReplaced = (/** @type {typeof rows[0]} */ { before, drawn: [drawn], drawings }) => before === 'restore' || (drawn && (isAgain(drawn) || drawings.some((each) => isMoved(drawn, each))));
  return rows.filter((row) => !isReplaced(row)).sort((a, b) => b.at - a.at);
}

/** What one member drew in the place of others just before the number of a delete, the last first, or else the last alone.
 * @type {(found: Map<string, Drawing>, by: number, seq: number) => Drawing[]} */
function drawnBefore(found, by, seq) {
  const /** @type {Drawing[]} */ drawn = [];
  for (let at = seq - 1, each = found.get(`${by} ${at}`); each && (!drawn.length || isAgain(each)); each = found.get(`${by} ${at -= 1}`)) drawn.push(each);
  return drawn;
}

/** Whether a drawing is erased after the step of a row, which drew some in the place of others: it is one of those, or as many are gone, and then came a pause.
 * @type {(row: { last: number, drawings: Drawing[], drawn: Drawing[] }, drawing: Drawing, at: number) => boolean} */
function isAfter({ last, drawings, drawn }, drawing, at) {
  return drawn.length > 0 && (drawn.includes(drawing) || (isAgain(drawn[0]) && drawings.length >= drawn.length && at - last > PAUSE));
}

/** Whether a plain drawing is another one elsewhere.
 * @type {(a: Drawing, b: Drawing) => boolean} */
function isMoved(a, b) {
  if (a.op === 'text') return b.op === 'text' && !inkOf(a) && a.text === b.text;
  return b.op !== 'text' && a.op === b.op && a.glyph === b.glyph && a.x1 - a.x0 === b.x1 - b.x0 && a.y1 - a.y0 === b.y1 - b.y0;
}

/** What a page showed at a moment, as far as is known: who erased something twice is known by the last time.
 * @type {(board: Board, at: number) => Drawing[]} */
export function shownAt({ drawops, hidden }, at) {
  const then = hidden.filter(({ erased }) => erased && Number(erased[2]) > at);
  return [...drawops, ...then].filter(({ time }) => Number(time) <= at);
}

/** The moments at which something was drawn or erased, in order, of each second the last.
 * @type {(board: Board) => number[]} */
export function momentsOf({ drawops, hidden }) {
  const all = [...drawops, ...hidden].map(({ time }) => Number(time)).concat(hidden.map(({ erased }) => Number(erased?.[2] ?? 0))).filter(Boolean).sort((a, b) => a - b);
  return all.filter((at, i) => Math.floor(at / SECOND) !== Math.floor(all[i + 1] / SECOND));
}

/** A moment as a clock shows it.
 * @type {(at: number, hasSeconds?: boolean) => string} */
export const hourOf = (at, hasSeconds = false) => new Date(at / 1000).toLocaleTimeString(LOCALE, { hour: '2-digit', minute: '2-digit', ...hasSeconds ? { second: '2-digit' } : {} });

export class History {
  /** @param {import('./whiteboard.js').Whiteboard} board */
  constructor(board) {
    this.board = board;
    /** @type {number[]} */
    this.moments = [];
    /** What is offered, until when.
     * @type {Erased[]} */
    this.offered = [];
    this.timer = 0;
    board.session.on('board', (_, taken) => { this.show(); this.watch(taken); });
    $('cleared').querySelector('button').addEventListener('click', () => { this.restore(this.offered); this.offer(null); board.focusSheet(); });
    board.session.on('notes', () => this.show());
    $('earlier-open').addEventListener('click', () => this.open());
    $('earlier-at').addEventListener('input', () => this.look());
    $('earlier-back').addEventListener('click', () => this.bringBack());
  }

  /** The rows of the panel, if it is open. */
  show() {
    const { session } = this.board, isSeen = !$('side').hidden && !$('panel-people').hidden;
    if (!isSeen) return;
    const hadFocus = $('hiding').contains(document.activeElement);
    $('hiding').hidden = !session.board.hidden.length;
    renew($('hidden'), rowsOf(session.board).slice(0, MOST_ROWS), ({ by, at }) => `${by} ${at}`, () => this.line(), (line, row) => this.showRow(line, row));
    // a row that is brought back is gone: whoever works by keys goes on at the next
    if (hadFocus && ($('hiding').hidden || !$('hiding').contains(document.activeElement))) ($('hiding').hidden ? $('tab-people') : $('hidden').querySelector('button') ?? $('tab-people')).focus();
  }

  line() {
    const line = make('li'), words = make('span'), button = make('button', wording('bringBack'));
    words.append(make('i'), make('time'));
    button.addEventListener('click', () => this.restore(line.drawings));
    line.append(words, button);
    return line;
  }

  /** @param {any} line @param {Row} row */
  showRow(line, { by, at, drawings }) {
    const { session } = this.board, [words, button] = line.children, n = itemsOf(drawings).length, isMe = by === session.hello.me, who = session.who(by);
    const one = { who, what: kindOf(drawings[0]) }, what = n === 1 ? wording(isMe ? 'youErased' : 'erased', one) : wording(isMe ? 'youCleared' : 'cleared', { who, n });
    line.drawings = drawings;
    [`${what} `, hourOf(at)].forEach((text, i) => write(words.children[i], text));
    button.setAttribute('aria-label', wording('bringBackWhat', { what, hour: hourOf(at) }));
  }

  /** @param {Drawing[]} drawings */
  restore(drawings) {
    const step = this.board.steps.begin();
    drawings.forEach((drawing) => step.restore(drawing));
    say(wording('broughtBack', { n: itemsOf(drawings).length }));
  }

  // ---- what somebody else clears

  /** Looks whether others erase much at once, and whether what is offered is still erased.
   * @param {import('./session.js').Taken} taken */
  watch({ isTurned, gone }) {
    const { board, erased, hello: { me } } = this.board.session, isErased = (/** @type {Drawing} */ drawing) => /** @type {Erased | undefined} */ (erased.get(nameOf(drawing)));
    if (isTurned || (this.offered.length && !this.offered.some(isErased))) this.offer(null);
    if (isTurned || !gone.some((drawing) => (isErased(drawing)?.erased?.[0] ?? me) !== me)) return;
    const [row] = rowsOf(board);
    if (row && row.by !== me && itemsOf(row.drawings).length >= MANY) this.offer(row);
  }

  /** Offers to bring a row back, or nothing any more.
   * @param {Row | null} row */
  offer(row) {
    const bar = $('cleared');
    clearTimeout(this.timer);
    this.offered = row?.drawings ?? [];
    bar.hidden = !row;
    if (!row) return;
    write(bar.querySelector('span'), wording('cleared', { who: this.board.session.nameOf(row.by), n: itemsOf(row.drawings).length }));
    this.timer = /** @type {any} */ (setTimeout(() => this.offer(null), OFFERED));
  }

  // ---- the page as it was

  /** Opens the page as it was before the last erasing. */
  open() {
    const { session } = this.board, [row] = rowsOf(session.board), before = row ? row.at - 1 : Infinity;
    this.moments = momentsOf(session.board);
    const at = this.moments.findLastIndex((moment) => moment <= before);
    Object.assign($('earlier-at'), { min: 0, max: Math.max(0, this.moments.length - 1), value: Math.max(0, at) });
    $('earlier').showModal();
    this.look();
  }

  /** Shows the page as it was at the moment that is chosen, and what would come back. */
  look() {
    const { session, overview } = this.board, at = this.moments[Number($('earlier-at').value)] ?? 0, missing = itemsOf(this.missing()).length;
    overview.paint($('earlier-canvas'), { ...session.board, drawops: shownAt(session.board, at) }, LARGE);
    $('earlier-told').textContent = hourOf(at, true);
    $('earlier-back').textContent = missing ? wording('bringBackMany', { n: missing }) : wording('nothingMissing');
    $('earlier-back').disabled = !missing;
  }

  /** What the page showed then, and was erased since: what was moved is there. */
  missing() {
    const { board } = this.board.session, at = this.moments[Number($('earlier-at').value)] ?? 0, then = new Set(shownAt(board, at).map(nameOf));
    return rowsOf(board).flatMap(({ drawings }) => drawings).filter((drawing) => then.has(nameOf(drawing)));
  }

  bringBack() {
    this.restore(this.missing());
    $('earlier').close();
  }
}
