/** The panel: people, the chat and the network, behind one button; and what is new in the chat. */
import { $ } from './dom.js';
import { wording } from './language.js';

export class Side {
  /** @param {import('./whiteboard.js').Whiteboard} board */
  constructor(board) {
    this.board = board;
    /** Texts of others that were seen, and those that are new. */
    this.seen = 0;
    this.unread = 0;
    for (const tab of document.querySelectorAll('[data-tab]')) {
      tab.addEventListener('click', () => this.show(/** @type {HTMLElement} */ (tab).dataset.tab ?? ''));
    }
    $('fold').addEventListener('click', () => ($('side').hidden ? this.show(this.unread ? 'chat' : 'people') : this.close()));
    $('close-side').addEventListener('click', () => this.close());
    $('state').addEventListener('click', () => this.show(board.state?.isAnother ? 'people' : 'net'));
    $('side').addEventListener('keydown', (/** @type {KeyboardEvent} */ event) => event.key === 'Escape' && this.close());
    board.session.on('notes', ({ said }) => this.count(said));
  }

  /** @param {string} name of a tab */
  show(name) {
    $('side').hidden = false;
    $('fold').setAttribute('aria-expanded', 'true');
    for (const tab of document.querySelectorAll('[data-tab]')) {
      const { tab: own } = /** @type {HTMLElement} */ (tab).dataset;
      tab.setAttribute('aria-selected', String(own === name));
      $(`panel-${own}`).hidden = own !== name;
    }
    this.count(this.board.notes.told.said);
    this.board.history.show();
    if (name === 'chat') $('saying').focus();
    else $(`tab-${name}`).focus();
  }

  close() {
    $('side').hidden = true;
    $('fold').setAttribute('aria-expanded', 'false');
    this.board.view.sheet.focus(/** @type {FocusOptions} */ ({ preventScroll: true, focusVisible: false }));
  }

  /** How many texts of others are new: none while the chat is seen.
   * @param {import('./notes.js').Said[]} said */
  count(said) {
    const all = said.filter(({ source }) => source !== this.board.session.hello.me).length;
    if (!$('side').hidden && !$('panel-chat').hidden) this.seen = all;
    this.unread = Math.max(0, all - this.seen);
    $('unread').textContent = String(this.unread);
    $('unread').hidden = this.unread === 0;
    $('fold').setAttribute('aria-label', this.unread ? wording('sideNew', { n: this.unread }) : wording('side'));
  }
}
