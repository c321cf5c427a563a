/** The parts of the panel: who is there, how the network is, and how it is worsened. */
import { $, make } from './dom.js';
import { renew, write } from './keyed.js';
import { retold, wording } from './language.js';
import { initialsOf } from './notes.js';

/** @typedef {import('./whiteboard.js').Whiteboard} Whiteboard */
/** @typedef {import('./types.js').Other} Other */

/** Members and warnings that are listed. */
const MOST_MEMBERS = 64, MOST_WARNINGS = 3;

/** What is counted beside datagrams, if there is any.
 * @type {[string, import('./language.js').Key][]} */
const MORE = [['lost', 'lostOnPurpose'], ['twice', 'twiceOnPurpose'], ['refused', 'manyRefused'], ['dropped', 'manyDropped'], ['foreign', 'manyForeign']];

/** What a member holds of the page in view, if it has told that.
 * @type {Record<import('./types.js').Holds, import('./language.js').Key>} */
const HOLDS = { same: 'holdsSame', 'not-yet': 'holdsNotYet', another: 'holdsAnother' };

/** @param {number} seconds */
export function ago(seconds) {
  if (seconds < 2) return wording('now');
  return seconds < 120 ? wording('secondsAgo', { n: Math.floor(seconds) }) : wording('minutesAgo', { n: Math.floor(seconds / 60) });
}

/** @param {Whiteboard} board */
export function showMembers({ session, painter, others, faces, follow }) {
  /** Where a member is, in words.
   * @param {Other} other @param {string} heard */
  const whereOf = ({ member }, heard) => {
    const page = others.pageOf(member), follows = others.points.get(member)?.beside.follows ?? null;
    if (member === session.hello.me) return wording('you');
    if (member === session.hello.keeper) return wording('keepsBoard');
    if (follows !== null) return follows === session.hello.me ? wording('followsYou') : wording('follows', { name: session.nameOf(follows) });
    return page ? wording('onPage', { page: session.titleOf(page) }) : heard === wording('now') ? wording('here') : wording('heard', { ago: heard });
  };
  /** @param {Other} other */
  const row = ({ member }) => {
    const line = make('li'), words = make('div'), button = make('button');
    words.append(make('b'), make('small'));
    button.addEventListener('click', () => follow.follow(follow.leader === member ? null : member));
    line.append(badge(painter, '', member), words, button);
    return line;
  };
  /** @param {HTMLElement} line @param {Other} other */
  const fill = (line, other) => {
    const { member, delay, heard } = other, isMe = member === session.hello.me, [mark, words, button] = /** @type {any} */ (line.children);
    const seen = heard == null ? '' : ago(heard + (performance.now() - faces.heardAt) / 1000), isFollowed = follow.leader === member;
    line.title = isMe || delay == null ? wording('memberTip', { member }) : wording('memberAway', { member, delay: delay < 10 ? delay.toFixed(1) : Math.round(delay), ago: seen });
    write(mark, member === session.hello.keeper ? '' : initialsOf(session.called.get(member), member));
    mark.style.setProperty('--c', painter.tintOf(member));
    write(words.firstChild, session.nameOf(member));
    const where = whereOf(other, seen);
    write(words.lastChild, other.holds ? wording('whereHolds', { where, holds: wording(HOLDS[other.holds]) }) : where);
    words.lastChild.className = other.holds === 'another' ? 'lost' : '';
    write(button, wording(isFollowed ? 'isFollowed' : 'follow'));
    button.setAttribute('aria-pressed', String(isFollowed));
    button.hidden = isMe || member === session.hello.keeper;
  };
  const show = () => {
    const { members, keeper } = faces;
    renew($('members'), [...members.slice(0, MOST_MEMBERS), ...keeper ? [keeper] : []], ({ member }) => member, row, fill);
    write($('more-members'), members.length > MOST_MEMBERS ? wording('andMore', { n: members.length - MOST_MEMBERS }) : '');
    $('call').hidden = members.length < 2;
  };
  for (const name of ['members', 'notes', 'followed', 'presence']) session.on(name, show);
  setInterval(() => $('side').hidden || show(), 1000);
}

/** The initials of a member, in its colour.
 * @param {import('./painter.js').Painter} painter @param {string} initials @param {number} member */
export function badge(painter, initials, member) {
  const mark = make('i', initials, 'face');
  mark.style.setProperty('--c', painter.tintOf(member));
  mark.setAttribute('aria-hidden', 'true');
  return mark;
}

/** @param {string} kind @param {string} phrase */
function setHealth(kind, phrase) {
  $('phrase').className = kind;
  if ($('phrase').textContent !== phrase) $('phrase').textContent = phrase;
}

/** What the network does, as the member tells it.
 * @param {Whiteboard} board */
export function showHealth({ session }) {
  session.on('health', ({ phrase, missing, warnings, counts }) => {
    const more = MORE.map(([name, key]) => (counts[name] ? wording(key, { n: counts[name] }) : '')).join('');
    setHealth(missing ? 'missing' : '', session.hello.ready ? retold(phrase) : wording('toldListening'));
    $('counts').textContent = wording('counts', { ...counts, more });
    $('warnings').replaceChildren(...warnings.slice(-MOST_WARNINGS).map((/** @type {string} */ warning) => make('li', retold(warning))));
  });
  session.on('link', (link) => link === 'open' || setHealth('lost', wording(link === 'gone' ? 'toldMoved' : 'toldNoAnswer')));
  session.on('hello', ({ twin }) => { $('twin').hidden = !twin; });
  $('renumber').addEventListener('click', () => session.member.renumber?.());
}

/** Losses on purpose.
 * @param {Whiteboard} board */
export function showWorse({ session }) {
  /** @type {HTMLInputElement[]} */
  const inputs = [...$('worsen').querySelectorAll('input')];
  /** @param {string} name */
  const perCent = (name) => (name === 'delay' ? 1 : 100);
  /** @param {HTMLInputElement} input */
  const show = (input) => {
    const value = /** @type {any} */ (session.hello.worsen)?.[input.name] ?? 0, told = /** @type {HTMLElement} */ (input.nextElementSibling);
    if (input.type === 'checkbox') input.checked = Boolean(value);
    else if (input !== document.activeElement) input.value = String(Math.round(value * perCent(input.name)));
    told.textContent = input.type === 'checkbox' ? '' : `${input.value} ${input.name === 'delay' ? 'ms' : '%'}`;
  };
  session.on('hello', ({ teach }) => {
    $('worsen').hidden = !teach;
    inputs.forEach(show);
  });
  $('worsen').addEventListener('change', () => {
    const entries = inputs.map((input) => [input.name, input.type === 'checkbox' ? input.checked : Number(input.value) / perCent(input.name)]);
    session.member.worsen(Object.fromEntries(entries));
  });
}
