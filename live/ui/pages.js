/** The pages of the session, and how one turns to another. */
import { $, make } from './dom.js';
import { wording } from './language.js';

/** Pages that are listed. */
const MOST = 500;

/** @param {import('./session.js').Session} session */
export function showPages(session) {
  const show = () => {
    const { board } = session, leaves = session.leaves(), at = leaves.findIndex(({ page }) => page === board.page);
    const options = leaves.slice(0, MOST).map(({ page, drawn }) => Object.assign(make('option', session.titleOf(page)), { value: page, title: wording('pageHas', { page, n: drawn }) }));
    $('pages').replaceChildren(...options);
    $('pages').value = board.page;
    $('back').disabled = at <= 0;
    $('forth').disabled = at < 0 || at >= leaves.length - 1;
  };
  session.on('pages', show);
  session.on('notes', show);
  session.on('board', (_, { isTurned }) => isTurned && show());
  $('pages').addEventListener('change', () => session.goToPage($('pages').value));
}
