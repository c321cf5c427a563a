/** For Node: a member that goes on where it ended: a judged host, and the file of what it says is to be recorded. */
import { randomInt } from 'node:crypto';
import { closeSync, fsyncSync, ftruncateSync, openSync, readFileSync, writeSync } from 'node:fs';
import { dirname, resolve } from 'node:path';
import { Answer, Host, LISTENING, Refused, anySeed } from './wb.js';

/** How a record begins, the line of its board after that, and the last line of a member that ended as it should. */
const FIRST_LINE = '# wb record 1', BOARD = /^board (\d{1,10}) (\d{1,5}) 1 (\d{1,20})$/, ENDED = '# ended';

/** Moments of a host are below that. The clock of each start begins above the record, anywhere in one part in so many of those that are left, at one
 * that nobody guesses: who echoes a moment of ours has heard it. */
const MOST_MOMENT = 2 ** 48, LEAD_PART = 512;

/** Microseconds after which a host gets the time of day again. */
const MINUTE = 60_000_000;

/** A file that only grows. One process has it at a time. */
export class Record {
  /** @param {string} path */
  constructor(path) {
    this.path = path;
    this.isBroken = false;
    // whether lines wait for a sync, and whether that waits for more of them
    this.isDue = this.isHeld = false;
    this.file = openSync(path, 'a+', 0o600);
    const text = readFileSync(path, 'latin1');
    if (!text.startsWith(FIRST_LINE.slice(0, text.length))) {
      closeSync(this.file);
      throw new Refused(path, 'it is no record');
    }
    // a last line without its line feed was cut off, and nothing of it was sent
    this.size = this.synced = text.lastIndexOf('\n') + 1;
    ftruncateSync(this.file, this.size);
    this.lines = text.slice(0, this.size).split('\n').slice(0, -1);
  }

  /** Puts lines at the end, all or none; what this member drew is on the disk then. It throws where there is no room.
   * @param {string[]} lines */
  add(lines) {
    if (!lines.length) return;
    const text = lines.map((line) => `${line}\n`).join('');
    try {
      if (writeSync(this.file, text, null, 'latin1') < text.length) throw new Error(`there is no room for ${this.path}`);
    } catch (fault) {
      this.cut(this.size);
      throw fault;
    }
    this.size += text.length;
    this.isDue ||= lines.some((line) => line.startsWith('say ') || line.startsWith('#'));
    this.sync();
  }

  /** Puts on the disk what is due. */
  sync() {
    if (!this.isDue || this.isHeld) return;
    try {
      fsyncSync(this.file);
    } catch (fault) {
      this.cut(this.synced);
      throw fault;
    }
    this.isDue = false;
    this.synced = this.size;
  }

  /** Takes off what could not be written. Nothing is written from then on.
   * @param {number} size */
  cut(size) {
    this.isBroken = true;
    ftruncateSync(this.file, size);
    this.size = size;
  }

  /** Puts the name of a new file on the disk. */
  syncName() {
    const folder = openSync(dirname(resolve(this.path)), 'r');
    try {
      fsyncSync(folder);
    } finally {
      closeSync(folder);
    }
  }

  /** Closes it, and says that nothing was lost. */
  end() {
    if (this.file < 0) return;
    try {
      if (!this.isBroken) this.add([ENDED]);
    } finally {
      closeSync(this.file);
      this.file = -1;
    }
  }
}

/** A judged host with a record: it decides also which datagrams it takes, by the place from which each came, and what it holds it holds again when
 * it is started anew. What it drew is on the disk before an answer has it to be sent. If a record ends as it should, its host draws at once; else it
 * listens first. A call throws where the record can't be written: end it, and start again. */
export class RecordedHost extends Host {
  /** @param {number} member @param {import('./wb.js').BareHost} bare @param {Record} record */
  constructor(member, bare, record) {
    super(member, bare);
    this.record = record;
    this.toldAt = 0;
  }

  /** Opens one, with what its record has.
   * @param {number} member @param {import('./wb.js').Opening & { record: string }} opening */
  static async open(member, { record: path, program, cells = 65_535, seed = anySeed(), rate = 4_000, listen = LISTENING }) {
    const record = new Record(path);
    try {
      const host = new RecordedHost(member, await program.start(), record);
      host.begin(`board ${member} ${cells} 1 ${seed}`, rate, record.lines[record.lines.length - 1] === ENDED ? 0 : listen);
      return host;
    } catch (fault) {
      record.isBroken = true;
      record.end();
      throw fault;
    }
  }

  /** @param {string} board for a new record @param {number} rate @param {number} listen */
  begin(board, rate, listen) {
    const { lines, path } = this.record, head = [FIRST_LINE, board].slice(lines.length), found = head.length ? board : lines[1] ?? '';
    if (BOARD.exec(found)?.[1] !== `${this.member}`) throw new Refused(path, `it is no record of member ${this.member}`);
    const last = lines.reduce((most, line) => (line.startsWith('tick ') ? Math.max(most, Number(line.slice(5))) : most), -1);
    this.begun = this.toldAt = last + 1 + randomInt(Math.floor((MOST_MOMENT - last) / LEAD_PART));
    this.readyAt = this.begun + listen;
    this.must(found);
    this.must(`judge ${this.begun} ${rate} ${listen} ${Date.now() * 1000} - -`);
    for (const line of lines) this.must(`held ${line}`);
    this.record.lines = [];
    this.record.add([...head, '# started']);
    this.record.syncName();
  }

  end() {
    super.end();
    this.record.end();
  }

  /** What a call came to, once its record is written.
   * @param {Answer} answer @param {Uint8Array} [datagram] */
  kept(answer, datagram) {
    this.record.add(answer.records);
    if (answer.dropped !== null) answer.refused = `dropped ${answer.dropped}`;
    return this.heed(answer, datagram);
  }

  /** @param {number} now @param {Uint8Array} datagram @param {bigint} [place] */
  came(now, datagram, place = 0n) {
    return this.kept(this.live().cameFrom(now, { place, owner: null }, datagram), datagram);
  }

  /** Tells it the time of day, in microseconds since 1970, and gives what is to be sent.
   * @param {number} now @param {number} time */
  told(now, time) {
    this.toldAt = now;
    return this.kept(this.live().wall(now, time)).send;
  }

  /** @param {number} now */
  tick(now) {
    const sent = now >= this.toldAt + MINUTE ? this.told(now, Date.now() * 1000) : [], answer = this.kept(this.live().tick(now));
    if (answer.refused !== null) throw new Refused(`tick ${now}`, answer.refused);
    answer.send.unshift(...sent);
    return answer;
  }

  /** @param {number} now @param {number | bigint} time @param {string} page @param {import('./drawings.js').Drawing | string} drawing */
  add(now, time, page, drawing) {
    const sent = this.told(now, Number(time)), answer = super.add(now, time, page, drawing);
    answer.send.unshift(...sent);
    return answer;
  }

  /** A judged host has the time of day itself.
   * @param {number} now @param {number | bigint} _time @param {string} page @param {string} operation */
  lineOf(now, _time, page, operation) {
    return `add ${now} ${page} ${operation}`;
  }

  /** @param {string} line @param {number} now @param {Uint8Array} draft */
  byBytes(line, now, draft) {
    const answer = this.kept(this.live().add(now, draft));
    if (answer.refused === 'full') return Object.assign(answer, { refused: null, became: /** @type {const} */ ('full') });
    // the line of a judged host has no time, and so one word less
    if (answer.refused !== null) throw new Refused(line, answer.refused.replace('word 6:', 'word 5:'));
    return answer;
  }

  /** @param {string} line @returns {Answer} */
  byLine(line) {
    const block = this.ask(line);
    if (block.fault !== null && block.fault !== 'full') throw new Refused(line, block.fault);
    this.record.add(block.said('record'));
    const fate = block.fault ?? block.said('became')[0], became = /** @type {import('./wb.js').Became} */ (fate === 'left' ? 'full' : fate);
    return Object.assign(new Answer(), { send: block.sent(), due: this.due, became, warning: block.said('warn')[0] ?? null });
  }

  /** The same, by one sync of the disk.
   * @param {number} now @param {number | bigint} time @param {string} page @param {(import('./drawings.js').Drawing | string)[]} drawings */
  addAll(now, time, page, drawings) {
    this.record.isHeld = true;
    try {
      return super.addAll(now, time, page, drawings);
    } finally {
      this.record.isHeld = false;
      this.record.sync();
    }
  }
}
