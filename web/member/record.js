/** The record of a member in the browser's own database: the lines that made its board, as `live/record.py` has them in a file.
 *
 * It has the line of the board, each drawop that was new, with the moment at which it came, marks of the member's own number that were heard at
 * its start, and who owns numbers where the network keeps names. Questions, what was refused, and what others asked for change nothing that is held: they are not there. */

/** A member of a session, kept: its number is not taken again while its record is there.
 * @typedef {{ session: string, me: number, at: number }} Kept */

/** The first line of a record, with the version of its lines. Records before version 1 have none, and are read the same. */
const VERSION = 1, WRITTEN_BY = /^# wb record ([0-9]{1,9})$/;
export const FIRST_LINE = `# wb record ${VERSION}`;

/** Lines without which a number of ours might be used twice: what we drew, and what the start before may have left to be written. */
const OURS = /^(?:say |# started )/;

/** Milliseconds until lines are written, and after which what could not be written is tried again. */
const PAUSE = 100, AGAIN = 1_000;

/** The lines that change a host: all but comments.
 * @param {string[]} lines */
export const actsOf = (lines) => lines.filter((line) => line && !line.startsWith('#'));

/** Whether a record was written by a later wb, as its first line says: then it stays as it is.
 * @param {string} first */
export const isLater = (first) => Number(WRITTEN_BY.exec(first)?.[1] ?? 0) > VERSION;

/** @param {IDBRequest | IDBTransaction} request @returns {Promise<any>} */
const done = (request) => new Promise((take, fail) => {
  const fault = () => fail(request.error ?? new Error('the database broke off'));
  if (request instanceof IDBTransaction) [request.oncomplete, request.onabort, request.onerror] = [take, fault, fault];
  else [request.onsuccess, request.onerror] = [() => take(request.result), fault];
});

/** @returns {Promise<IDBDatabase>} */
export function openDatabase() {
  const request = indexedDB.open('wb', 1);
  request.onupgradeneeded = () => {
    request.result.createObjectStore('members', { keyPath: ['session', 'me'] });
    request.result.createObjectStore('lines');
  };
  return done(request);
}

/** The members of a session that this browser has records of, the latest first, and how many records of a later wb there are beside them.
 * @param {IDBDatabase} database @param {string} session */
export async function keptMembers(database, session) {
  const range = IDBKeyRange.bound([session], [session, []]), stores = database.transaction(['members', 'lines']);
  /** @type {Kept[]} */
  const all = await done(stores.objectStore('members').getAll(range));
  const firsts = await Promise.all(all.map(({ me }) => done(stores.objectStore('lines').get([session, me, 0]))));
  const kept = all.filter((_, i) => !isLater(String(firsts[i] ?? '').split('\n', 1)[0]));
  return { kept: kept.sort((one, other) => other.at - one.at), later: all.length - kept.length };
}

export class Record {
  /** @param {IDBDatabase | null} database where there is none, what is kept vanishes with this page
   * @param {string} session @param {number} me */
  constructor(database, session, me) {
    this.database = database;
    this.session = session;
    this.me = me;
    /** Lines that are not in the database yet.
     * @type {string[]} */
    this.waiting = [];
    /** All lines that are, where there is no database.
     * @type {string[]} */
    this.held = [];
    this.parts = 0;
    this.timer = 0;
    /** Why it can't be written, where it is so. */
    this.fault = '';
    /** @type {Promise<void>} */
    this.written = Promise.resolve();
  }

  /** The range of this record's keys. */
  range() {
    return IDBKeyRange.bound([this.session, this.me], [this.session, this.me, []]);
  }

  /** All lines, from the first. */
  async lines() {
    await this.flush();
    if (!this.database) return [...this.held, ...this.waiting];
    const store = this.database.transaction('lines').objectStore('lines');
    const [texts, keys] = await Promise.all([done(store.getAll(this.range())), done(store.getAllKeys(this.range()))]);
    this.parts = Math.max(this.parts, keys.length ? keys[keys.length - 1][2] + 1 : 0);
    return [...texts.join('').split('\n').slice(0, -1), ...this.waiting];
  }

  /** Puts lines into the record. They are in the database soon, or when `flush` is done.
   * @param {string[]} lines */
  add(...lines) {
    this.waiting.push(...lines);
    this.soon(PAUSE);
  }

  /** Adds a comment with the time of day, which changes nothing.
   * @param {string} text */
  note(text) {
    this.add(`# ${text} at ${new Date().toISOString().slice(0, 19).replace('T', ' ')}`);
  }

  /** Puts lines into the database at once, behind those that wait. Whether it has them; else they are not in the record at all.
   * @param {string[]} lines */
  async keep(lines) {
    this.waiting.push(...lines);
    return !(await this.settle(lines)).length;
  }

  /** Done when all lines until now are in the database. Those of the lines given that could not be put there are not in the record any more.
   * @param {string[]} lines */
  async settle(lines) {
    /** @type {string[]} */
    let lost = [];
    this.written = this.written.then(async () => {
      await this.write();
      if (this.fault) lost = lines.filter((line) => this.waiting.includes(line));
      this.waiting = this.waiting.filter((line) => !lost.includes(line));
    });
    await this.written;
    return lost;
  }

  /** @param {number} pause */
  soon(pause) {
    this.timer ||= setTimeout(() => {
      this.timer = 0;
      this.flush();
    }, pause);
  }

  /** Done when all lines until now are in the database, or could not be put there. */
  flush() {
    this.written = this.written.then(() => this.write());
    return this.written;
  }

  async write() {
    const lines = [...this.waiting];
    if (!lines.length) return;
    try {
      if (this.database) await this.put(this.parts, lines);
      else this.held.push(...lines);
      this.waiting.splice(0, lines.length);
      this.parts += 1;
      this.fault = '';
    } catch (fault) {
      this.fail(fault);
    }
  }

  /** @param {any} fault */
  fail(fault) {
    this.fault = `the record can't be written (${fault?.message ?? fault})`;
    this.soon(AGAIN);
  }

  /** Lines of ours are on the disk when this is done: a crash of the machine does not lose them.
   * @param {number} part @param {string[]} lines */
  async put(part, lines) {
    const durability = lines.some((line) => OURS.test(line)) ? 'strict' : 'default';
    const stores = /** @type {IDBDatabase} */ (this.database).transaction(['lines', 'members'], 'readwrite', { durability });
    stores.objectStore('lines').put(lines.map((line) => `${line}\n`).join(''), [this.session, this.me, part]);
    stores.objectStore('members').put({ session: this.session, me: this.me, at: Date.now() });
    await done(stores);
  }

  /** Removes it from the database. */
  async remove() {
    await this.written;
    clearTimeout(this.timer);
    if (!this.database) return;
    const stores = this.database.transaction(['lines', 'members'], 'readwrite');
    stores.objectStore('lines').delete(this.range());
    stores.objectStore('members').delete([this.session, this.me]);
    await done(stores).catch(() => {});
  }
}
