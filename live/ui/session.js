/** What the member told last, and what it is asked to do. The page holds no other truth. */
import { nameOf, spell } from './cells.js';
import { retold, wording } from './language.js';
import { calledBy, leavesOf } from './leaves.js';

/** @typedef {import('./types.js').Member} Member */
/** @typedef {import('./types.js').Shape} Shape */
/** @typedef {import('./types.js').Drawing} Drawing */
/** @typedef {import('./types.js').Board} Board */
/** @typedef {import('./types.js').Reply} Reply */
/** What became of the page in view: whether it is another page; the drawings that it shows no more, and those that it shows since, in the
 * order of painting.
 * @typedef {{ isTurned: boolean, gone: Drawing[], added: Drawing[] }} Taken */

/** Milliseconds for which a ghost stays that the board does not come to show. */
const GHOST_STAYS = 3000;

/** So many drawings are taken out of a list, or put in, one by one; for more the list is made anew. */
const FEW = 32;

/** A list without some drawings that it has.
 * @type {(list: Drawing[], gone: Drawing[]) => Drawing[]} */
function without(list, gone) {
  if (gone.length > FEW) {
    const leaving = new Set(gone);
    return list.filter((drawing) => !leaving.has(drawing));
  }
  gone.forEach((drawing) => list.splice(list.indexOf(drawing), 1));
  return list;
}

/** A list with drawings more, each at its place there, the first places first.
 * @type {(list: Drawing[], added: [number, Drawing][]) => Drawing[]} */
export function withMore(list, added) {
  if (added.length <= FEW) {
    added.forEach(([at, drawing]) => list.splice(at, 0, drawing));
    return list;
  }
  /** @type {Drawing[]} */
  const whole = [];
  let from = 0;
  for (const [at, drawing] of added) {
    while (whole.length < at && from < list.length) whole.push(list[from++]);
    whole.push(drawing);
  }
  while (from < list.length) whole.push(list[from++]);
  return whole;
}

export class Session {
  /** @param {Member} member */
  constructor(member) {
    this.member = member;
    /** @type {import('./types.js').Hello} */
    this.hello = { me: 0, mode: '', notice: '', ready: false, teach: false };
    /** The page in view. A change is put into it: it stays the same object until another page is shown.
     * @type {Board} */
    this.board = { page: '', drawops: [], hidden: [], rows: [] };
    /** The drawings that are shown, by their names, and those that are hidden.
     * @type {Map<string, Drawing>} */
    this.shown = new Map();
    /** @type {Map<string, Drawing>} */
    this.erased = new Map();
    /** @type {import('./types.js').Pages['pages']} */
    this.pages = [];
    /** The page that was asked for last, until it is shown.
     * @type {string | null} */
    this.wished = null;
    /** What was let go, until the board shows it.
     * @type {Set<{ ghost: Shape, name: string }>} */
    this.waiting = new Set();
    /** Is called with the first page that is shown.
     * @type {(page: string) => void} */
    this.open = () => {};
    /** The first page that is shown: what is drawn before waits for it.
     * @type {Promise<string>} */
    this.opened = new Promise((open) => { this.open = open; });
    /** Whether the member answers: what the page says of that goes by this alone.
     * @type {import('./types.js').Link} */
    this.link = 'lost';
    this.unsent = 0;
    /** The names of members, the titles of pages, and how people ordered them.
     * @type {Map<number, string>} */
    this.called = new Map();
    /** @type {Map<string, string>} */
    this.titles = new Map();
    /** @type {import('./leaves.js').Ordered} */
    this.ordered = { places: [], gone: new Map() };
    /** The pages that are listed, until one of these is another.
     * @type {{ of: any[], leaves: import('./types.js').Leaf[] }} */
    this.listed = { of: [], leaves: [] };
    /** @type {Map<string, ((news: any, taken?: any) => void)[]>} */
    this.listeners = new Map();
  }

  /** Has `hear` called after each news of this name: one of the member's states, `ghosts`, or `fault` with a text. With `board`, which
   * comes after a change of it too, stands what became of the page (`Taken`).
   * @param {string} name @param {(news: any, taken?: any) => void} hear */
  on(name, hear) {
    this.listeners.set(name, [...(this.listeners.get(name) ?? []), hear]);
  }

  /** @param {string} name @param {any} [news] @param {Taken} [taken] */
  emit(name, news, taken) {
    this.listeners.get(name)?.forEach((hear) => hear(news, taken));
  }

  /** From now on the member is heard. */
  begin() {
    this.member.subscribe((name, news) => this.take(name, news));
  }

  /** @param {string} name @param {any} news */
  take(name, news) {
    if (name === 'hello') this.hello = news;
    if (name === 'pages') this.pages = news.pages;
    if (name === 'link') this.link = news;
    if (name === 'unsent') this.unsent = news;
    if (name === 'change') this.takePart(news);
    else if (name === 'board') this.takeWhole(news);
    else this.emit(name, news);
  }

  /** Whether the page has a drawing of this name, shown or hidden.
   * @param {string} name */
  has(name) {
    return this.shown.has(name) || this.erased.has(name);
  }

  /** Another page, or the same anew.
   * @param {Board} news */
  takeWhole(news) {
    const before = this.shown, isTurned = news.page !== this.board.page, /** @type {Drawing[]} */ added = [];
    if (isTurned) {
      this.waiting.clear();
      this.wished = this.wished === news.page ? null : this.wished;
    }
    this.shown = new Map();
    // a drawing that was shown already stays the same object
    const drawops = news.drawops.map((drawing) => {
      const name = nameOf(drawing), known = isTurned ? undefined : before.get(name);
      this.shown.set(name, known ?? drawing);
      if (!known) added.push(drawing);
      return known ?? drawing;
    });
    this.board = { ...news, drawops };
    this.erased = new Map(news.hidden.map((drawing) => [nameOf(drawing), drawing]));
    const gone = isTurned ? [] : [...before].filter(([name]) => !this.shown.has(name)).map(([, drawing]) => drawing);
    this.open(news.page);
    this.told({ isTurned, gone, added });
  }

  /** What became of the page in view: what is named goes, what is shown stands where it says, and some rows are others.
   * @param {import('./types.js').Change} change */
  takePart({ names, added, hidden, rows, height }) {
    const { board, shown, erased } = this;
    /** @type {(from: Map<string, Drawing>) => Drawing[]} */
    const leave = (from) => names.flatMap(([source, seq]) => {
      const name = `${source} ${seq}`, drawing = from.get(name);
      from.delete(name);
      return drawing ? [drawing] : [];
    });
    const gone = leave(shown), restored = leave(erased);
    added.forEach(([, drawing]) => shown.set(nameOf(drawing), drawing));
    hidden.forEach((drawing) => erased.set(nameOf(drawing), drawing));
    board.drawops = withMore(without(board.drawops, gone), added);
    board.hidden = without(board.hidden, restored).concat(hidden);
    board.rows = Array.from({ length: height }, (_, y) => rows[y] ?? board.rows[y] ?? '');
    this.told({ isTurned: false, gone, added: added.map(([, drawing]) => drawing) });
  }

  /** @param {Taken} taken */
  told(taken) {
    this.waiting.forEach((wait) => this.has(wait.name) && this.waiting.delete(wait));
    this.emit('board', this.board, taken);
  }

  /** What a member is called.
   * @param {number} member */
  nameOf(member) {
    return this.called.get(member) || (member === this.hello.keeper ? wording('theBoard') : wording('guest', { number: String(member).slice(-2) }));
  }

  /** What a page is called: by its title, else by its place among the pages.
   * @param {string} page */
  titleOf(page) {
    return this.titles.get(page) || calledBy(this.leaves(), page);
  }

  /** Whose drawing it is, in words.
   * @param {number} member */
  who(member) {
    return member === this.hello.me ? wording('you') : this.nameOf(member);
  }

  /** Has a shape drawn, on the page in view if no other is named. Its ghost stays until the board shows it.
   * @param {Shape} shape @param {string} [page] */
  draw(shape, page) {
    return this.send(spell(shape), page, shape);
  }

  /** @param {{ source: number, seq: number }} drawing @param {string} [page] */
  hide(drawing, page) {
    return this.send(`delete ${nameOf(drawing)}`, page);
  }

  /** @param {{ source: number, seq: number }} drawing @param {string} [page] */
  restore(drawing, page) {
    return this.send(`restore ${nameOf(drawing)}`, page);
  }

  /** @param {string} operation @param {string} [page] @param {Shape} [ghost] @returns {Promise<Reply>} */
  async send(operation, page = this.board.page, ghost) {
    const wait = ghost && page === this.board.page ? { ghost, name: '' } : null;
    if (wait) this.waiting.add(wait);
    this.emit('ghosts');
    const answer = await this.member.draw(page || await this.opened, operation);
    if (!answer.ok) this.emit('fault', wording('notDrawn', { why: retold(answer.fault) }));
    if (wait) this.settle(wait, answer);
    return answer;
  }

  /** @param {{ ghost: Shape, name: string }} wait @param {Reply} answer */
  settle(wait, answer) {
    wait.name = `${answer.source} ${answer.seq}`;
    if (!answer.ok || this.has(wait.name)) this.waiting.delete(wait);
    setTimeout(() => {
      this.waiting.delete(wait);
      this.emit('ghosts');
    }, GHOST_STAYS);
    this.emit('ghosts');
  }

  /** Asks for a page, or for a new one, and gives its name if it is there.
   * @param {string | null} page @param {boolean} [isLed] whether that is another's wish @returns {Promise<string | undefined>} */
  async goToPage(page, isLed = false) {
    if (!isLed) this.emit('turning');
    this.wished = page;
    const answer = await this.member.choose(page);
    if (answer.ok) return answer.page;
    this.wished = null;
    this.emit('fault', wording('notTurned', { why: retold(answer.fault) }));
    return undefined;
  }

  /** The pages that are turned through. */
  leaves() {
    const of = [this.pages, this.ordered, this.board.page];
    if (of.some((each, i) => each !== this.listed.of[i])) this.listed = { of, leaves: leavesOf(this.pages, this.ordered, this.board.page) };
    return this.listed.leaves;
  }

  /** Whether this window may clear pages: the one of who keeps the board decides that for the others. */
  get mayClear() {
    return this.hello.clears !== false;
  }

  /** Turns some pages on, from the page that was asked for last.
   * @param {number} by */
  turn(by) {
    const leaves = this.leaves(), next = leaves[leaves.findIndex(({ page }) => page === (this.wished ?? this.board.page)) + by];
    if (next) this.goToPage(next.page);
  }
}
