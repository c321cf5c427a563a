/** A member over HTTP: `wb-live`. It tells its states by a WebSocket, and takes what is drawn by requests. What it has not answered is asked for
 * again, under the same name, until it is: so each drawing is drawn once, also by a program that was started anew meanwhile. */

/** @typedef {import('./types.js').Reply} Reply */
/** @typedef {import('./types.js').Worse} Worse */
/** Something that was asked and not answered yet: an operation by its name, or another request.
 * @typedef {{ settle: (answer: Reply) => void, drawing?: { page: string, op: string, id: string }, path?: string, body?: object }} Asked */

/** Milliseconds until a program that does not answer is asked again: at first, and at most; and that a request may take. */
const FIRST_PAUSE = 250, LONGEST_PAUSE = 3000, PATIENCE = 12_000;

/** Operations of one request, and their characters. */
const MOST_OPERATIONS = 128, MOST_CHARACTERS = 48_000;

/** What the program answers that is not the last word: it does not know this window, or has too much to do. */
const NOT_NOW = [0, 403, 408, 503];

export class HttpMember {
  /** @param {string} token the word that the page was served with */
  constructor(token) {
    this.token = token;
    /** @type {(name: string, news: any) => void} */
    this.hear = () => {};
    /** @type {import('./types.js').Link} */
    this.link = 'lost';
    /** The page that is shown, which a program that was started anew hears. */
    this.page = '';
    this.tries = 0;
    /** In the order of the hand.
     * @type {Asked[]} */
    this.queue = [];
    this.isAsking = false;
    this.wake = () => {};
    /** The names of what is asked: of this window, and a number. */
    this.name = [...crypto.getRandomValues(new Uint8Array(8))].map((byte) => byte.toString(16).padStart(2, '0')).join('');
    this.names = 0;
  }

  // ---- the connection

  /** By a WebSocket: of other streams a browser has six a host, and so six tabs.
   * @param {(name: string, news: any) => void} hear */
  subscribe(hear) {
    this.hear = hear;
    globalThis.addEventListener?.('beforeunload', (event) => { if (this.queue.length) event.preventDefault(); });
    this.open();
  }

  open() {
    const socket = new WebSocket(new URL(`events?token=${this.token}${this.page && `&page=${this.page}`}`, location.href.replace(/^http/, 'ws')));
    let isOpen = false;
    socket.onopen = () => {
      [isOpen, this.tries] = [true, 0];
      this.become('open');
      this.wake();
    };
    socket.onmessage = ({ data }) => {
      const { name, news } = JSON.parse(data);
      if (name === 'board') this.page = news.page;
      this.hear(name, news);
    };
    socket.onclose = () => {
      this.become('lost');
      setTimeout(() => (isOpen ? this.open() : this.come()), this.pause());
    };
  }

  /** The program did not take the connection: if it knows this window no more, it gives it another member; if the page has another address now, this
   * one can't know that. */
  async come() {
    const answer = await fetch('.', { signal: patience() }).catch(() => null);
    if (answer?.status === 403) this.become('gone');
    this.open();
  }

  /** @param {import('./types.js').Link} link */
  become(link) {
    if (link === this.link || (this.link === 'gone' && link === 'lost')) return;
    this.link = link;
    this.hear('link', link);
    this.count();
  }

  /** How long to wait for the next try: longer each time. */
  pause() {
    this.tries += 1;
    return Math.min(LONGEST_PAUSE, FIRST_PAUSE * 2 ** (this.tries - 1));
  }

  // ---- what is asked in the order of the hand

  /** @param {string} page @param {string} operation @returns {Promise<Reply>} */
  draw(page, operation) {
    this.names += 1;
    const drawing = { page, op: operation, id: `${this.name}-${this.names}` };
    return new Promise((settle) => this.put({ settle, drawing }));
  }

  /** @param {string} path @param {object} body @returns {Promise<Reply>} */
  post(path, body) {
    return new Promise((settle) => this.put({ settle, path, body }));
  }

  /** @param {Asked} asked */
  put(asked) {
    this.queue.push(asked);
    this.count();
    this.askAll();
  }

  /** Tells how much waits for a program that does not answer. */
  count() {
    if (this.link !== 'open') this.hear('unsent', this.queue.filter(({ drawing }) => drawing).length);
  }

  async askAll() {
    if (this.isAsking) return;
    this.isAsking = true;
    while (this.queue.length) if (!await (this.queue[0].drawing ? this.askDrawings() : this.askFirst())) await this.rest();
    this.isAsking = false;
    this.count();
  }

  /** Waits for a while, or until the program is there again. */
  rest() {
    return new Promise((go) => {
      this.wake = () => go(undefined);
      setTimeout(go, this.pause());
    });
  }

  /** Anything else than a drawing is not asked for again: nobody wishes for it later. */
  async askFirst() {
    const [{ settle, path = '', body = {} }] = this.queue.splice(0, 1);
    settle(await this.ask(path, body));
    return true;
  }

  /** Asks for the operations that stand first, all at once; whether all are answered.
   * @returns {Promise<boolean>} */
  async askDrawings() {
    const some = this.firstDrawings(), answer = await this.ask('draw', { many: some.map(({ drawing }) => drawing) });
    if (!answer.ok && NOT_NOW.includes(answer.status ?? 0)) return false;
    const answers = /** @type {(Reply | undefined)[]} */ (/** @type {any} */ (answer).answers ?? []);
    const done = some.map((_, i) => answers[i] ?? answer), waits = done.findIndex(({ ok, status }) => !ok && status !== undefined && NOT_NOW.includes(status));
    const many = waits < 0 ? some.length : waits;
    this.queue.splice(0, many);
    some.slice(0, many).forEach(({ settle }, i) => settle(done[i]));
    this.count();
    return waits < 0;
  }

  firstDrawings() {
    const end = this.queue.findIndex(({ drawing }) => !drawing), some = this.queue.slice(0, Math.min(MOST_OPERATIONS, end < 0 ? Infinity : end));
    let room = MOST_CHARACTERS;
    const full = some.findIndex(({ drawing }) => { room -= JSON.stringify(drawing).length; return room < 0; });
    return some.slice(0, full < 0 ? undefined : Math.max(1, full));
  }

  /** @param {string | null} page */
  choose(page) {
    return this.post('page', page === null ? { new: true } : { page });
  }

  /** Takes a new number. */
  renumber() {
    return this.post('number', { new: true });
  }

  /** @param {Worse} worse */
  worsen(worse) {
    return this.post('worsen', worse);
  }

  // ---- what needs no turn

  /** @param {string} page @param {[number, number] | null} cell @param {string[]} begun */
  point(page, cell, begun) {
    return this.ask('point', { page, cell, begun });
  }

  /** @param {{ at?: number, speed?: number, stopped?: boolean }} change */
  film(change) {
    return this.ask('film', change);
  }

  /** Begins or joins a session beside this one.
   * @param {string} session */
  next(session) {
    return this.ask('next', { session });
  }

  /** Whether windows of others may clear pages.
   * @param {boolean} others */
  clearing(others) {
    return this.ask('clearing', { others });
  }

  /** @param {string} page @returns {Promise<import('./types.js').Board | null>} */
  read(page) {
    return this.get(`board?page=${page}`, (answer) => answer.json());
  }

  /** @param {string} page @param {string} since @returns {Promise<import('./types.js').PageNews | null>} */
  news(page, since) {
    return this.get(`news?page=${page}&since=${since}`, (answer) => answer.json());
  }

  record() {
    return this.get('record', (answer) => answer.text());
  }

  /** Null if not all of it comes in time.
   * @template T @param {string} path @param {(answer: Response) => Promise<T>} read @returns {Promise<T | null>} */
  async get(path, read) {
    try {
      const answer = await fetch(path, { headers: { 'X-Wb-Token': this.token }, signal: patience() });
      return answer.ok ? await read(answer) : null;
    } catch {
      return null;
    }
  }

  /** @param {string} path @param {object} body @returns {Promise<Reply>} */
  async ask(path, body) {
    const headers = { 'Content-Type': 'application/json', 'X-Wb-Token': this.token };
    try {
      const answer = await fetch(path, { method: 'POST', body: JSON.stringify(body), headers, signal: patience() });
      return answer.ok ? await answer.json() : { ...await answer.json(), status: answer.status };
    } catch {
      return { ok: false, fault: 'wb-live does not answer', status: 0 };
    }
  }
}

const patience = () => /** @type {any} */ (AbortSignal).timeout(PATIENCE);
