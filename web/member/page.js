/** The page of ./wb --page: the whiteboard over a member of its own, in a worker. */
import { tell } from '../../live/ui/dom.js';
import { retold, speak, wording } from '../../live/ui/language.js';
import { openWhiteboard } from '../../live/ui/whiteboard.js';
import { BUILT } from './built.js';
import { readInvitation, writeInvitation } from './invitation.js';
import { Panel } from './panel.js';
import { WorkerMember } from './worker_member.js';

/** The number that this tab had in a session, which lasts over a reload.
 * @param {import('./invitation.js').Invitation} invitation */
const placeOf = ({ session, broker }) => `wb ${location.pathname} ${broker} ${session}`;

function begin() {
  const invitation = readInvitation(location.hash), place = placeOf(invitation), kept = sessionStorage.getItem(place);
  const folder = new URL('.', document.baseURI).href;
  const worker = new WorkerMember({ folder, invitation, me: kept === null ? null : Number(kept), notice: wording('noticeOfPage') });
  // a board that goes on is a session of another name, which the same broker carries under the same key
  const member = Object.assign(worker, { next: async (/** @type {string} */ session) => ({ ok: true, address: writeInvitation({ ...invitation, session }) }) });
  const board = openWhiteboard(member), panel = new Panel(invitation, BUILT);
  board.session.on('begun', ({ me, module }) => {
    sessionStorage.setItem(place, String(me));
    panel.begun(module);
  });
  board.session.on('health', (health) => panel.take(health));
  board.session.on('broken', (fault) => panel.broke(fault));
}

try {
  begin();
} catch (fault) {
  speak();
  tell(wording('noInvitation', { why: retold(/** @type {Error} */ (fault).message) }));
}

// another invitation is another session
addEventListener('hashchange', () => location.reload());

// what is kept for a start without a network; where a browser does not allow it, the page does without
navigator.serviceWorker?.register(new URL('service.js', document.baseURI), { updateViaCache: 'none' }).catch(() => {});
