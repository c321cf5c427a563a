/** How the board is, in words for everyone: whether everything is here, and how full it is. */
import { $, say, tell } from './dom.js';
import { write } from './keyed.js';
import { retold, wording } from './language.js';

/** @typedef {import('./types.js').Health} Health */

/** The part of a board from which on the page says how full it is; from which on names, the chat and deletes alone have room; and deletes alone. */
const CLOSE = 0.8, FULL = 15 / 16, WHOLE = 31 / 32;

/** What is the matter with the connection; empty if nothing is.
 * @type {(link: import('./types.js').Link, unsent: number) => string} */
export function linked(link, unsent) {
  if (link === 'open') return '';
  if (link === 'gone') return wording('movedAddress');
  return unsent ? wording('offlineWaits', { n: unsent }) : wording('offline');
}

/** What the member says of itself, in words for everyone. Of warnings it reads nothing: others may have a say in their words.
 * @type {(health: Health, isReady: boolean) => { kind: string, text: string }} */
export function plainly({ phrase, missing, taken, cells }, isReady) {
  if (taken >= cells * WHOLE) return { kind: 'lost', text: wording('boardFull') };
  if (!isReady) return { kind: 'missing', text: wording('lookingWho') };
  if (missing) return { kind: 'missing', text: wording('catchingUp', { n: missing }) };
  if (taken >= cells * CLOSE) return { kind: 'warns', text: wording('boardAlmostFull') };
  return /^(whole|caught up)/.test(phrase) ? { kind: '', text: wording('everythingHere') } : { kind: 'missing', text: retold(phrase) };
}

export class State {
  /** @param {import('./whiteboard.js').Whiteboard} board */
  constructor(board) {
    const { session } = board;
    this.board = board;
    /** Which part of the board is taken. */
    this.full = 0;
    /** @type {Health | null} */
    this.health = null;
    /** Whether somebody holds another page than we. */
    this.isAnother = false;
    for (const name of ['link', 'unsent']) session.on(name, () => this.show());
    session.on('link', (link) => (link !== 'open' || this.health) && say(linked(link, session.unsent) || wording('boardBack')));
    session.on('health', (health) => this.take(health));
    session.on('notes', () => this.showNext());
    session.on('members', ({ members }) => this.compare(members));
    for (const name of ['go-on', 'another-on']) $(name).addEventListener('click', () => this.goOn());
  }

  /** @param {Health} health */
  take(health) {
    const { session } = this.board;
    this.health = health;
    this.full = health.taken / health.cells;
    this.show();
    this.showNext();
  }

  /** Tells who holds another page than we, and what can be done.
   * @param {import('./types.js').Other[]} members */
  compare(members) {
    const { session } = this.board, names = members.filter(({ holds }) => holds === 'another').map(({ member }) => session.nameOf(member));
    this.isAnother = names.length > 0;
    $('another').hidden = !this.isAnother;
    if (this.isAnother) write($('another').querySelector('span'), wording('anotherPage', { page: session.titleOf(session.board.page), names: names.join(', ') }));
    this.show();
  }

  /** By the connection, and if that is there by the health. */
  show() {
    const { session: { link, unsent, hello } } = this.board, button = $('state'), away = linked(link, unsent);
    const told = away || !this.health ? { kind: 'lost', text: away || wording('connecting') } : plainly(this.health, hello.ready);
    const { kind, text } = this.isAnother && !away ? { kind: 'lost', text: wording('notTheSame') } : told;
    button.className = `island ${kind}`;
    button.title = text;
    write(button.querySelector('span'), text);
    $('gone').hidden = link !== 'gone';
    write($('gone-unsent'), unsent ? wording('goneUnsent', { n: unsent }) : '');
  }

  /** From some part on the page offers to go on on a new board; where someone did, it says so. */
  showNext() {
    const { session, notes: { told: { next } } } = this.board, bar = $('next');
    bar.hidden = !next && this.full < CLOSE;
    if (bar.hidden) return;
    const full = this.full >= FULL ? wording('fullNow') : wording('fullPart', { percent: Math.round(this.full * 100) }), isMine = next?.source === session.hello.me;
    const text = next ? wording(isMine ? 'youGoOn' : 'goesOn', { who: session.nameOf(next.source), board: next.session }) : full;
    if (bar.firstElementChild.textContent !== text) bar.firstElementChild.textContent = text;
    $('go-on').textContent = wording(next ? 'goThere' : 'goOn');
  }

  /** Names the board after this one, and goes there. */
  async goOn() {
    const { session, notes } = this.board, next = notes.told.next?.session ?? nameOfNext(new Date());
    if (!session.member.next) return tell(wording('nextByHand'));
    const { ok, fault, address } = await session.member.next(next);
    if (!ok || !address) return tell(wording('nextNotBegun', { why: retold(fault) }));
    if (!notes.told.next) await notes.goOn(next);
    location.assign(addressOf(address, location.href));
    return undefined;
  }
}

/** The address of another board, in the language that this one's asks for.
 * @type {(address: string, here: string) => string} */
export function addressOf(address, here) {
  const there = new URL(address, here);
  there.search ||= new URL(here).search;
  return there.href;
}

/** The name of a board after this one: by the day, and a number that no other begun on that day is likely to have.
 * @type {(now: Date, chance?: () => number) => string} */
export const nameOfNext = (now, chance = Math.random) => `board-${now.toISOString().slice(0, 10)}-${1000 + Math.floor(chance() * 9000)}`;
