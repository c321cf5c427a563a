/** Names of members, titles of pages, and what is said: texts on a page that a convention reserves (docs/SCRIPTS.md), which is named,
 * repaired and recorded as every other. */
import { SIDE, spell } from './cells.js';
import { inTexts, readLetters, writeLetters } from './inkletters.js';
import { MOST_SIGNS, TILDE } from './inksigns.js';
import { retold, wording } from './language.js';
import { withMore } from './session.js';
import { seen, toldApart } from './unseen.js';

/** @typedef {import('./types.js').Drawing} Drawing */
/** What was said, by whom and when.
 * @typedef {{ source: number, seq: number, time: string, text: string }} Said */
/** The last text that a member said: its signs, the letters so far, and what was said with it.
 * @typedef {{ seq: number, time: string, signs: number, letters: string, entry: Said }} Piece */
/** The names and the colours of members, the titles of pages, which page was put behind which one, in order, and which were deleted; what was
 * said, the first free row, the session in which the board goes on, with who said so, and on what pages are.
 * @typedef {{ names: Map<number, string>, colours: Map<number, number>, titles: Map<string, string>, places: [string, string][], gone: Map<string, Drawing[]>,
 *   said: Said[], row: number, next: { session: string, source: number } | null, papers: Map<string, Paper> }} Noted */
/** @typedef {'dots' | 'squares' | 'lines' | 'none'} Paper */

/** The page that is reserved. */
export const NOTES = '0/0';

/** Letters of a name and of a title. */
export const MOST_NAME = 24, MOST_TITLE = 36;

/** Milliseconds between two readings of the reserved page. */
const PAUSE = 1_000;

/** Moves of pages that count: the last ones. */
const MOST_PLACES = 1_000;

/** The name of a session in which a board goes on. */
export const NEXT = /^[A-Za-z0-9._-]{1,40}$/;

/** The first word of a text of this page, whether what follows is in signs, as the letters of ink are, and what follows. */
const WORD = /^([^\s~]+)(~?) ?(.*)$/;

/** Signs that a text of the chat lacks at most if it goes on in the next one, and microseconds until that. */
const FULL = MOST_SIGNS - 3, SOON = 5_000_000;

/** Letters on one line, as they are shown.
 * @type {(letters: string) => string} */
export const shownOf = (letters) => seen(letters.normalize('NFC').replace(/\s+/g, ' '));

/** The first letters of some.
 * @type {(letters: string, many: number) => string} */
const firstOf = (letters, many) => [...letters].slice(0, many).join('');

/** What the texts of the reserved page say, the later ones over the earlier: a member names itself alone and chooses its own colour; anyone
 * entitles, moves and deletes a page, says on what paper it is, and where the board goes on.
 * @param {Drawing[]} drawops in the order of painting
 * @returns {Noted} */
export function readNotes(drawops) {
  /** @type {Noted} */
  const told = { names: new Map(), colours: new Map(), titles: new Map(), places: [], gone: new Map(), said: [], row: 0, next: null, papers: new Map() };
  /** @type {Map<number, Piece>} */
  const last = new Map();
  for (const drawing of drawops) {
    if (drawing.op !== 'text') continue;
    const { source, seq, time, text } = drawing, [, word = '', tilde = '', rest = ''] = WORD.exec(text) ?? [], [, page, title] = /^(\d+\/\d+) ?(.*)$/.exec(rest) ?? [];
    const written = word === 'title' ? title ?? '' : rest, letters = tilde ? readLetters(written) : written, shown = shownOf(letters ?? '');
    told.row = Math.max(told.row, drawing.y + 1);
    if (letters === null) continue;
    if (word === 'name') told.names.set(source, firstOf(shown, MOST_NAME));
    if (word === 'title' && page) told.titles.set(page, firstOf(shown, MOST_TITLE));
    if (word === 'say') takeSaid(told.said, last, drawing, letters);
    if (tilde) continue;
    if (word === 'colour' && /^[0-8]$/.test(rest)) told.colours.set(source, Number(rest));
    if (word === 'colour' && rest === '') told.colours.delete(source);
    if (word === 'next' && NEXT.test(rest)) told.next = { session: rest, source };
    readOrder(told, word, rest, drawing);
  }
  told.places = told.places.slice(-MOST_PLACES);
  return told;
}

/** Takes what was said. A text that is full goes on in the next of its member.
 * @type {(said: Said[], last: Map<number, Piece>, drawing: Drawing & { op: 'text' }, letters: string) => void} */
function takeSaid(said, last, { source, seq, time, text }, letters) {
  const before = last.get(source), goesOn = before && before.seq === seq - 1 && before.signs >= FULL && Number(time) - Number(before.time) < SOON;
  const all = goesOn ? before.letters + letters : letters, entry = goesOn ? before.entry : { source, seq, time, text: '' };
  entry.text = shownOf(all);
  if (!said.includes(entry) && entry.text) said.push(entry);
  last.set(source, { seq, time, signs: text.length, letters: all, entry });
}

/** The place of a page, that one is deleted, and on what paper it is.
 * @type {(told: Noted, word: string, rest: string, drawing: Drawing) => void} */
function readOrder({ places, gone, papers }, word, rest, drawing) {
  const [, on, paper] = /^(\d+\/\d+) (dots|squares|lines|none)$/.exec(rest) ?? [];
  if (word === 'paper' && on) papers.set(on, /** @type {Paper} */ (paper));
  const [, page, after] = /^(\d+\/\d+)(?: (\d+\/\d+))?$/.exec(rest) ?? [];
  if (word === 'place' && page && after) places.push([page, after]);
  if (word === 'gone' && page && !after) gone.set(page, [drawing, ...gone.get(page) ?? []]);
}

/** One or two letters for a member: of its name, else the last digits of its number.
 * @type {(name: string | undefined, member: number) => string} */
export function initialsOf(name, member) {
  const words = (name ?? '').split(/[^\p{L}\p{M}\p{N}]+/u).filter(Boolean);
  if (!words.length) return String(member).slice(-2);
  return (words.length > 1 ? firstOf(words[0], 1) + firstOf(words[words.length - 1], 1) : firstOf(words[0], 2)).toUpperCase();
}

/** The texts that say letters behind a word and what is plain: as they stand, or in signs behind a tilde if one of them is not ASCII.
 * @type {(word: string, head: string, letters: string) => string[]} */
export function spoken(word, head, letters) {
  const isPlain = /^[ -~]*$/.test(letters), first = `${word}${isPlain ? '' : TILDE} ${head}`;
  return inTexts(first, isPlain ? [...letters] : writeLetters(letters), first);
}

export class Notes {
  /** @param {import('./session.js').Session} session */
  constructor(session) {
    this.session = session;
    this.told = readNotes([]);
    /** How many drawops the reserved page has, how many it had when it was read, and what the member then said to ask with next. */
    this.drawn = 0;
    this.read = 0;
    this.since = '';
    this.isReading = false;
    /** Ends the pause before the next reading: what we say ourselves is read at once. */
    this.hurry = () => {};
    /** What it shows, as far as it was read.
     * @type {Drawing[]} */
    this.drawops = [];
    session.on('pages', ({ pages }) => this.look(pages));
    session.on('board', (board) => board.page === NOTES && this.take(board.drawops));
  }

  /** Reads what is new of the reserved page if something was drawn on it, once a second at most: who draws much there delays nothing else.
   * @param {import('./types.js').Pages['pages']} pages */
  async look(pages) {
    this.drawn = pages.find(({ page }) => page === NOTES)?.drawn ?? 0;
    if (this.isReading) return;
    this.isReading = true;
    while (this.read !== this.drawn && this.session.member.news) {
      const drawn = this.drawn, news = await this.session.member.news(NOTES, this.since);
      if (news) {
        this.takeNews(news);
        this.read = drawn;
      }
      await new Promise((/** @type {(value?: any) => void} */ go) => {
        this.hurry = go;
        setTimeout(go, PAUSE);
      });
    }
    this.isReading = false;
  }

  /** @param {import('./types.js').PageNews} news */
  takeNews({ since, whole, names, added }) {
    const off = new Set(names.map((name) => name.join(' ')));
    this.since = since;
    this.drawops = withMore(whole ? [] : this.drawops.filter(({ source, seq }) => !off.has(`${source} ${seq}`)), added);
    this.take(this.drawops);
  }

  /** @param {Drawing[]} drawops */
  take(drawops) {
    this.told = readNotes(drawops);
    this.session.called = toldApart(this.told.names);
    this.session.titles = this.told.titles;
    this.session.ordered = this.told;
    this.session.emit('notes', this.told);
  }

  /** Tells our name, as far as a text has room for it.
   * @param {string} name */
  name(name) {
    return this.write(spoken('name', '', firstOf(shownOf(name), MOST_NAME))[0]);
  }

  /** @param {number} colour its place among the nine */
  colour(colour) {
    return this.write(`colour ${colour}`);
  }

  /** Says in which session the board goes on.
   * @param {string} name */
  goOn(name) {
    return this.write(`next ${name}`);
  }

  /** @param {string} page @param {string} title */
  entitle(page, title) {
    return this.write(spoken('title', `${page} `, firstOf(shownOf(title), MOST_TITLE))[0]);
  }

  /** Puts a page behind another one, or first behind the reserved one.
   * @param {string} page @param {string} after */
  place(page, after) {
    return this.write(`place ${page} ${after}`);
  }

  /** On what paper a page is.
   * @param {string} page @returns {Paper} */
  paperOf(page) {
    return this.told.papers.get(page) ?? 'dots';
  }

  /** Puts a page on other paper.
   * @param {string} page @param {Paper} paper */
  paper(page, paper) {
    return this.write(`paper ${page} ${paper}`);
  }

  /** Says that a page is deleted: it is listed no more until something is drawn on it.
   * @param {string} page */
  remove(page) {
    return this.write(`gone ${page}`);
  }

  /** Takes back that a page is deleted.
   * @param {string} page */
  keep(page) {
    this.told.gone.get(page)?.forEach((drawing) => this.session.hide(drawing, NOTES));
  }

  /** Says a text, in as many pieces as it takes.
   * @param {string} text */
  async say(text) {
    const letters = shownOf(text);
    for (const piece of letters ? spoken('say', '', letters) : []) await this.write(piece);
  }

  /** Writes a text on the reserved page, in the first row that is free.
   * @param {string} text */
  async write(text) {
    const row = Math.min(this.told.row, SIDE - 1);
    this.told.row += 1;
    const answer = await this.session.member.draw(NOTES, spell({ op: 'text', x: 0, y: row, text }));
    if (!answer.ok) this.session.emit('fault', wording('notTold', { why: retold(answer.fault) }));
    this.hurry();
    return answer.ok;
  }
}
