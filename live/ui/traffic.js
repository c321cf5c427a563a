/** The last datagrams in words, with a line from each request to its repair. */
import { $, make } from './dom.js';
import { retold, wording } from './language.js';

/** @typedef {import('./types.js').Entry} Entry */

/** Datagrams that are kept, and those that are shown; milliseconds between two showings; the height of a row, in points. */
const MOST_KEPT = 600, MOST_SHOWN = 200, PAUSE = 120, ROW = 20;

const SVG = 'http://www.w3.org/2000/svg';

/** The words without times, and of a repair its name alone.
 * @param {Entry} entry @param {Entry} [asked] */
export function brief({ kind, words }, asked) {
  const all = words.split(' ');
  if (kind === 'session-message') return [...all.slice(0, 2), ...all.slice(3)].join(' ');
  return kind === 'draw' ? [...all.slice(0, 4), ...(asked ? [] : all.slice(5))].join(' ') : words;
}

export class Traffic {
  /** @param {import('./session.js').Session} session */
  constructor(session) {
    this.session = session;
    /** @type {Entry[]} */
    this.entries = [];
    this.timer = 0;
    /** Whether the last row is to be seen: until someone looks at others. */
    this.isAtEnd = true;
    $('wire').addEventListener('scroll', () => {
      const box = $('wire');
      this.isAtEnd = box.scrollTop + box.clientHeight > box.scrollHeight - 30;
    });
    new ResizeObserver(() => this.follow()).observe($('wire'));
    session.on('wire', ({ entries }) => this.take(entries));
    $('filter').addEventListener('change', () => this.show());
    $('pause').addEventListener('click', () => {
      $('pause').setAttribute('aria-pressed', String(!this.isPaused()));
      this.show();
    });
  }

  isPaused() {
    return $('pause').getAttribute('aria-pressed') === 'true';
  }

  /** @param {Entry[]} entries */
  take(entries) {
    const last = this.entries.at(-1)?.id ?? -1, isFirst = !this.entries.length;
    for (const entry of entries.filter(({ id }) => id > last)) this.add(entry, isFirst);
    this.entries = this.entries.slice(-MOST_KEPT);
    if (!this.isPaused()) this.timer ||= setTimeout(() => this.show(), PAUSE);
  }

  /** @param {Entry} entry @param {boolean} isFirst whether it came before this page looked on */
  add(entry, isFirst) {
    const { board } = this.session, [source, page, seq] = (entry.name ?? '').split(' ');
    entry.held = !isFirst && entry.kind === 'request' && page === board.page && this.session.has(`${source} ${seq}`);
    // what is asked for again is repaired again: the last request counts
    if (entry.answers != null) entry.answers = this.entries.findLast(({ kind, name }) => kind === 'request' && name === entry.name)?.id ?? entry.answers;
    this.entries.push(entry);
  }

  /** What a datagram means for the session, in a few words.
   * @param {Entry} entry @param {Entry} [asked] */
  noteOf(entry, asked) {
    if (entry.refused) return wording('refusedWhy', { why: retold(entry.refused) });
    if (entry.lost) return wording('wasLost');
    if (!asked) return entry.twice ? wording('twice') : '';
    const repairs = this.entries.filter(({ answers, lost }) => answers === asked.id && !lost), isFirst = repairs[0] === entry;
    const who = entry.way === 'out' ? wording('wireYou') : entry.by ?? entry.member ?? '', member = asked.member ?? '';
    if (isFirst && asked.held && asked.way === 'in' && repairs.every(({ way }) => way === 'in')) return wording('repairedFirst', { who });
    const text = wording(asked.way === 'in' ? 'repairedFor' : 'repaired', { who, member });
    return isFirst ? text : wording('onceMore', { text });
  }

  /** @param {Entry} entry @param {Entry} [asked] */
  row(entry, asked) {
    const kind = entry.kind === 'request' ? 'request' : asked ? 'repair' : entry.kind === 'bad' ? 'bad' : '';
    const row = make('li', '', entry.lost || entry.refused ? `${kind} gone` : kind), note = this.noteOf(entry, asked);
    row.title = `${entry.at.toFixed(3)} s ${entry.way} ${entry.words}${note && `\n${note}`}`;
    row.append(make('span', entry.way === 'in' ? '←' : '→', 'way'), make('span', brief(entry, asked)));
    if (note) row.append(make('span', note, asked && !entry.lost ? 'note' : 'mark'));
    return row;
  }

  show() {
    clearTimeout(this.timer);
    this.timer = 0;
    const { entries } = this, kinds = $('filter').value, box = $('wire'), list = make('ul');
    const byId = new Map(entries.map((entry) => [entry.id, entry])), asked = new Set(entries.map(({ answers }) => answers));
    /** @param {Entry} entry */
    const isWanted = (entry) => !kinds || (kinds === 'repairs' ? entry.answers != null || asked.has(entry.id) : kinds.includes(entry.kind));
    const shown = entries.filter(isWanted).slice(-MOST_SHOWN);
    list.append(...shown.map((entry) => this.row(entry, byId.get(entry.answers ?? -1))));
    box.replaceChildren(joinRows(shown), list);
    this.follow();
  }

  follow() {
    if (this.isAtEnd) $('wire').scrollTop = $('wire').scrollHeight;
  }
}

/** Lines at the left edge from each request to its repair.
 * @param {Entry[]} shown */
function joinRows(shown) {
  const rowOf = new Map(shown.map((entry, i) => [entry.id, i])), join = document.createElementNS(SVG, 'svg');
  join.setAttribute('height', String(shown.length * ROW));
  for (const [i, { answers, lost }] of shown.entries()) {
    const from = rowOf.get(answers ?? -1);
    if (lost || from === undefined) continue;
    const path = document.createElementNS(SVG, 'path');
    path.setAttribute('d', `M17 ${from * ROW + ROW / 2}H${5 + (i % 3) * 4}V${i * ROW + ROW / 2}H17`);
    join.append(path);
  }
  return join;
}
