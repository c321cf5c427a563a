/** What the address's fragment says of a session: its name, the broker that carries it, and the key. No server sees it. */

/** @typedef {object} Invitation
 * @property {string} session
 * @property {string} broker   a WebSocket's address; empty where the tabs of this browser are the session
 * @property {string} key      256 bits as base64url, behind `tag.` if it tags, or empty
 * @property {boolean} isOpen  it has no key on purpose
 * @property {Record<string, string>} more   how the network is made worse, for those who learn or test: lose, delay, twice, mix, teach */

const KEPT = ['session', 'broker', 'key', 'open'];

/** Characters of a session's name: what may stand in a topic without meaning something else there. */
const NAME = /^[A-Za-z0-9._~-]{1,64}$/;

/** @param {string} fragment @returns {Invitation} */
export function readInvitation(fragment) {
  const words = new URLSearchParams(fragment.replace(/^#/, '')), session = words.get('session') || 'board';
  if (!NAME.test(session)) throw new Error('the name of a session has up to 64 letters, digits, dots, dashes and underscores');
  const broker = words.get('broker') ?? '';
  if (broker && !/^wss?:$/.test(new URL(broker).protocol)) throw new Error('a broker has an address that begins with wss://');
  const key = words.get('key') ?? '', isOpen = !key && words.has('open');
  if (broker && !key && !isOpen) throw new Error('it has no key, and does not say that its board is open to everybody: open=yes');
  const more = Object.fromEntries([...words].filter(([name]) => !KEPT.includes(name)));
  return { session, broker, key, isOpen, more };
}

/** The fragment of an invitation, without what is for oneself alone.
 * @param {{ session: string, broker: string, key: string, isOpen?: boolean }} invitation */
export function writeInvitation({ session, broker, key, isOpen }) {
  const words = new URLSearchParams({ session });
  if (broker) words.set('broker', broker);
  if (key) words.set('key', key);
  else if (isOpen) words.set('open', 'yes');
  return `#${words}`;
}

/** The same for others: of a name and a password at the broker it tells nothing, each has his own.
 * @param {Invitation} invitation @returns {Invitation} */
export function forOthers(invitation) {
  if (!invitation.broker) return invitation;
  const broker = new URL(invitation.broker);
  if (!broker.username && !broker.password) return invitation;
  broker.username = broker.password = '';
  return { ...invitation, broker: broker.href };
}

/** A name for a session that hardly any other has. */
export function newName() {
  return [...crypto.getRandomValues(new Uint8Array(8))].map((byte) => 'abcdefghijkmnpqrstuvwxyz23456789'[byte & 31]).join('');
}
