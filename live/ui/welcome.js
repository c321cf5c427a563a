/** One's name and colour, which are asked for once. */
import { COLOURS, FOR_MEMBERS } from './colours.js';
import { $ } from './dom.js';
import { wording } from './language.js';
import { shownOf } from './notes.js';
import { radio, refill } from './style.js';

/** Where the page keeps them, and that they are not to be asked for. */
const NAME = 'wb-name', COLOUR = 'wb-colour', ASKED = 'wb-asked';

/** Milliseconds from the first page to the question: until then the names have come. */
const PAUSE = 700;

export class Welcome {
  /** @param {import('./whiteboard.js').Whiteboard} board */
  constructor(board) {
    this.board = board;
    this.colour = 0;
    this.isBegun = false;
    this.me = 0;
    board.session.on('board', () => this.begin());
    board.session.on('hello', ({ me }) => this.follow(me));
    board.session.on('film', () => { this.isBegun = true; });
    $('welcome').addEventListener('close', () => this.take());
    $('my-name').addEventListener('click', () => this.ask());
  }

  /** The first page is there: who has no name is asked, or tells the one of the last time. */
  begin() {
    const { session } = this.board, kept = localStorage.getItem(NAME);
    if (this.isBegun) return;
    this.isBegun = true;
    setTimeout(() => {
      if (this.board.notes.told.names.get(session.hello.me) || this.board.film.film) return;
      if (kept) this.tell(kept, Number(localStorage.getItem(COLOUR)));
      else if (localStorage.getItem(ASKED) !== 'no' && !document.querySelector('dialog[open]')) this.ask();
    }, PAUSE);
  }

  /** One's name goes along to another number.
   * @param {number} me */
  follow(me) {
    const kept = localStorage.getItem(NAME), isOther = this.isBegun && this.me !== me;
    this.me = me;
    if (isOther && kept) this.tell(kept, Number(localStorage.getItem(COLOUR)));
  }

  ask() {
    const { session, notes } = this.board, { me } = session.hello;
    this.colour = notes.told.colours.get(me) ?? this.free();
    $('welcome-name').value = notes.told.names.get(me) ?? localStorage.getItem(NAME) ?? '';
    this.showColours();
    $('welcome').returnValue = '';
    $('welcome').showModal();
    $('welcome-name').focus();
  }

  showColours() {
    refill($('welcome-colours'), FOR_MEMBERS.map((colour) => {
      const button = radio(wording(COLOURS[colour]), colour === this.colour, () => { this.colour = colour; this.showColours(); });
      button.style.setProperty('--c', this.board.style.tintOf(colour));
      return button;
    }));
  }

  /** A colour that no other of those here has, as far as there are. */
  free() {
    const { faces, session: { hello: { me } } } = this.board;
    return faces.colours.get(me) ?? FOR_MEMBERS[me % FOR_MEMBERS.length];
  }

  /** The form is closed. */
  take() {
    const name = shownOf($('welcome-name').value);
    this.board.view.sheet.focus(/** @type {FocusOptions} */ ({ preventScroll: true, focusVisible: false }));
    if ($('welcome').returnValue !== 'ok' || !name) {
      localStorage.setItem(ASKED, 'no');
      return;
    }
    localStorage.setItem(NAME, name);
    localStorage.setItem(COLOUR, String(this.colour));
    this.tell(name, this.colour);
  }

  /** Tells what is not told yet.
   * @param {string} name @param {number} colour */
  async tell(name, colour) {
    const { notes, session } = this.board, { me } = session.hello;
    if (notes.told.names.get(me) !== name) await notes.name(name);
    if (notes.told.colours.get(me) !== colour) await notes.colour(colour);
  }
}
