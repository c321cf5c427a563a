/** The member of this page, in a worker: a hidden tab slows the clock of a page down, and not that of a worker. */
import { FAR, NEAR } from './constants.js';
import { Program } from './host.js';
import { Inbox } from './inbox.js';
import { Member } from './member.js';
import { Refused } from './people.js';
import { writeGone } from './presence.js';
import { Record as Lines, keptMembers, openDatabase } from './record.js';
import { Seal, Sealed } from './seal.js';
import { Broker, Tabs, nameAt } from './transports.js';

/** What the page asks for as it begins.
 * @typedef {{ folder: string, invitation: import('./invitation.js').Invitation, me: number | null, notice: string }} Beginning */

/** Milliseconds that another worker of ours, whose page is being left, may take to let go of its number. */
const PATIENCE = 2_000;

/** Room of a board, in drawops, and bytes a second that the reports of all members take, with the most of either. */
const CELLS = 65_535, RATE = 4_000, MOST_RATE = 1_000_000;

const post = (/** @type {string} */ name, /** @type {any} */ news) => postMessage({ name, news });

/** Whether this worker has a number of a session, and has it alone while it lasts.
 * @param {string} session @param {number} me @param {number} wait */
function takeNumber(session, me, wait) {
  return new Promise((/** @type {(has: boolean) => void} */ tell) => {
    const hold = () => {
      tell(true);
      return new Promise(() => {});
    };
    navigator.locks.request(`wb ${session} ${me}`, { signal: /** @type {any} */ (AbortSignal).timeout(wait) }, hold).catch(() => tell(false));
  });
}

/** The number of this member, and whether its record was there: that of its page, or one of this browser's that nobody has now, or a new one.
 * Records of a later build stay as they are, and it is told how many there are.
 * @param {IDBDatabase | null} database @param {string} session @param {number | null} wished
 * @returns {Promise<{ me: number, isKept: boolean, later: number }>} */
async function findNumber(database, session, wished) {
  const found = database && navigator.locks ? await keptMembers(database, session) : { kept: [], later: 0 };
  const { later } = found, kept = found.kept.map(({ me }) => me);
  if (wished !== null && kept.includes(wished) && await takeNumber(session, wished, PATIENCE)) return { me: wished, isKept: true, later };
  for (const me of kept) if (await takeNumber(session, me, 50)) return { me, isKept: true, later };
  return { me: await newNumber(session), isKept: false, later };
}

/** A number that hardly anyone else has.
 * @param {string} session */
async function newNumber(session) {
  const me = 1_000_000 + Math.floor(Math.random() * 999_000_000);
  if (navigator.locks) await takeNumber(session, me, PATIENCE);
  return me;
}

/** What a session is known by in this browser: two with one name and other keys, or other brokers, are not one.
 * @param {import('./invitation.js').Invitation} invitation */
async function identityOf({ session, broker, key }) {
  if (!key) return `${broker} ${session}`;
  const digest = new Uint8Array(await crypto.subtle.digest('SHA-256', new TextEncoder().encode(key)));
  return `${broker} ${session} ${[...digest.subarray(0, 8)].map((byte) => byte.toString(16).padStart(2, '0')).join('')}`;
}

/** @param {import('./invitation.js').Invitation} invitation @param {number} me @param {import('./transports.js').Take} take
 * @param {() => void} back is called where it was gone and carries again
 * @returns {Promise<import('./member.js').Carrier>} */
async function openTransport({ session, broker, key }, me, take, back) {
  const sealed = key ? new Sealed(await Seal.of(key, session), take) : null, name = broker ? nameAt(broker, me) : '';
  /** @type {import('./transports.js').Take} */
  const hand = sealed ? (bytes, origin) => sealed.take(bytes, origin) : take;
  const will = async () => (sealed ? sealed.will() : writeGone(name));
  const under = broker ? new Broker(broker, session, name, await will(), hand, back, will) : new Tabs(session, hand);
  if (!sealed) return under;
  sealed.under = under;
  return sealed;
}

/** How the network is to be made worse.
 * @param {Record<string, string>} more */
function worseOf(more) {
  const part = (/** @type {string} */ name, /** @type {number} */ most) => Math.min(most, Math.max(0, Number(more[name]) || 0));
  return { lose: part('lose', 1), delay: part('delay', 5000), twice: part('twice', 1), mix: more.mix === '1' };
}

/** A number that the fragment's words say, between 0 and the greatest.
 * @param {string | undefined} word @param {number} most */
const numberOf = (word, most) => Math.min(most, Math.max(0, Math.floor(Number(word)) || 0));

/** How a board starts; `mayHaveDrawn` where its number may have drawn what its record lacks.
 * @param {import('./invitation.js').Invitation} invitation @param {boolean} mayHaveDrawn @returns {import('./board.js').Start} */
const startOf = ({ broker, more }, mayHaveDrawn) => ({
  cells: numberOf(more.cells, CELLS) || CELLS, rate: numberOf(more.rate, MOST_RATE) || RATE, many: broker ? FAR : NEAR, mayHaveDrawn,
});

/** @type {Member} */
let member;

/** @param {Beginning} beginning */
async function begin({ folder, invitation, me: wished, notice }) {
  const { more } = invitation, identity = await identityOf(invitation);
  const [program, database] = await Promise.all([
    Program.load(new URL(folder), more.wide === undefined ? undefined : more.wide === '1'), openDatabase().catch(() => null)]);
  const { me, isKept, later } = await findNumber(database, identity, wished), inbox = new Inbox();
  const transport = await openTransport(invitation, me, (bytes, origin) => member?.take(bytes, origin), () => member?.beginAgain());
  inbox.worse = worseOf(more);
  const begun = () => post('begun', { me: member.me, session: invitation.session, module: program.wide ? 'wb.wasm' : 'wb-any.wasm' });
  const fresh = async () => {
    const number = await newNumber(identity);
    return { me: number, record: new Lines(database, identity, number) };
  };
  const options = { notice, teach: more.teach === '1', start: startOf(invitation, isKept), fresh, begun };
  member = new Member(program, new Lines(database, identity, me), me, inbox, transport, options, post);
  if (later) member.alarms.warn('this browser has a record of a later build of this page, which stays as it is');
  if (!database) member.alarms.warn('this browser keeps no record: what is drawn here vanishes with this page, if nobody else has it');
  await member.open();
  Object.assign(globalThis, { member }); // for tests, and for who looks in
  begun();
  post('link', 'open');
  await member.run();
}

/** @type {Record<string, (...words: any[]) => Promise<any>>} */
const CALLS = {
  draw: (page, operation) => member.people.draw(page, operation),
  choose: (page) => member.people.call(() => member.people.choose(page)),
  worsen: (worse) => member.people.call(() => member.people.worsen(worse)),
  read: (page) => member.people.call(() => member.telling.boardOf(page)),
  news: (page, since) => member.people.call(() => member.telling.newsOf(page, since)),
  record: () => member.people.call(() => member.people.record()),
  point: (page, cell, begun) => member.people.point(page, cell, begun),
  renumber: () => member.people.call(() => member.takeNumber()),
};

/** @param {{ id: number, call: string, words: any[] }} asked */
async function answer({ id, call, words }) {
  try {
    postMessage({ id, answer: { ok: true, ...await CALLS[call](...words) } });
  } catch (fault) {
    postMessage({ id, answer: { ok: false, fault: fault instanceof Refused ? fault.message : `busy (${fault})` } });
  }
}

onmessage = ({ data }) => {
  if (data.call) answer(data);
  else begin(data).catch((fault) => post('broken', String(fault?.message ?? fault)));
};
