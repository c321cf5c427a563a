/** The chat, and the form for the title of a page. */
import { $, make } from './dom.js';
import { wording } from './language.js';
import { badge } from './members.js';
import { MOST_TITLE, initialsOf } from './notes.js';

/** Texts of the chat that are listed. */
const MOST_SAID = 200;

/** Opens the form for one text; gives what was typed, or null where it was dropped.
 * @type {(label: string, was: string, most: number) => Promise<string | null>} */
function askText(label, was, most) {
  const dialog = $('asking'), box = $('asked');
  $('asking-label').textContent = label;
  Object.assign(box, { value: was, maxLength: most });
  dialog.returnValue = '';
  dialog.showModal();
  box.select();
  return new Promise((done) => {
    dialog.addEventListener('close', () => done(dialog.returnValue === 'ok' ? box.value.trim() : null), { once: true });
  });
}

/** @param {import('./whiteboard.js').Whiteboard} board */
export function showChat({ session, notes, painter }) {
  $('entitle').addEventListener('click', async () => {
    const { page } = session.board, title = await askText(wording('titleOfPage'), session.titles.get(page) ?? '', MOST_TITLE);
    if (title !== null) notes.entitle(page, title);
  });
  $('chat').addEventListener('submit', (/** @type {Event} */ event) => {
    event.preventDefault();
    notes.say($('saying').value.trim());
    $('saying').value = '';
  });
  session.on('notes', ({ said }) => {
    const log = $('log'), isAtEnd = log.scrollTop + log.clientHeight > log.scrollHeight - 30;
    log.replaceChildren(...said.slice(-MOST_SAID).map((/** @type {import('./notes.js').Said} */ { source, text }) => {
      const line = make('li'), name = session.called.get(source);
      line.append(badge(painter, initialsOf(name, source), source), make('b', session.who(source)), Object.assign(make('span', text), { dir: 'auto' }));
      return line;
    }));
    if (isAtEnd) log.scrollTop = log.scrollHeight;
  });
}
