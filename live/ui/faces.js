/** Who is here, as faces beside the panel's button. */
import { coloursFor } from './colours.js';
import { $, make } from './dom.js';
import { renew, write } from './keyed.js';
import { wording } from './language.js';
import { initialsOf } from './notes.js';

/** @typedef {import('./types.js').Other} Other */

/** Faces that are shown. */
const MOST = 5;

export class Faces {
  /** @param {import('./whiteboard.js').Whiteboard} board */
  constructor(board) {
    this.board = board;
    /** Who is there, this member first, and since when that is known.
     * @type {Other[]} */
    this.members = [];
    /** The member of the program itself, which keeps the board and is nobody.
     * @type {Other | null} */
    this.keeper = null;
    /** The colours of those who have chosen none.
     * @type {Map<number, number>} */
    this.colours = new Map();
    this.heardAt = 0;
    const { session } = board;
    session.on('members', ({ members }) => this.take(members));
    for (const name of ['notes', 'presence', 'hello', 'followed']) session.on(name, () => this.show());
    session.on('board', (_, { isTurned }) => isTurned && this.show());
  }

  /** @param {Other[]} members */
  take(members) {
    const { me, keeper } = this.board.session.hello;
    this.members = [members.find(({ member }) => member === me) ?? { member: me }, ...members.filter(({ member }) => member !== me && member !== keeper)];
    this.keeper = members.find(({ member }) => member === keeper) ?? null;
    this.heardAt = performance.now();
    this.board.takeColours();
    this.show();
  }

  /** Gives those who have chosen none a colour each. */
  colour() {
    this.colours = coloursFor(this.members.map(({ member }) => member), this.board.notes.told.colours);
  }

  /** Whether a member is here.
   * @param {number} member */
  has(member) {
    return this.members.some((other) => other.member === member);
  }

  show() {
    renew($('faces'), this.members.slice(0, MOST), ({ member }) => member, ({ member }) => this.face(member), (line, { member }) => this.showFace(line.firstChild, member));
  }

  /** @param {number} member */
  face(member) {
    const { session, follow, welcome } = this.board, line = make('li'), face = make('button');
    face.addEventListener('click', () => {
      if (member === session.hello.me) welcome.ask();
      else follow.follow(follow.leader === member ? null : member);
    });
    line.append(face);
    return line;
  }

  /** @param {HTMLElement} face @param {number} member */
  showFace(face, member) {
    const { session, others, painter, follow } = this.board, page = others.pageOf(member), isMe = member === session.hello.me;
    const isAway = Boolean(page) && page !== session.board.page;
    write(face, initialsOf(session.called.get(member), member));
    face.style.setProperty('--c', painter.tintOf(member));
    const told = { name: session.nameOf(member), page: page ? session.titleOf(page) : '' };
    face.title = wording(isMe ? 'nameYou' : isAway ? 'followNameOn' : 'followName', told);
    face.setAttribute('aria-label', face.title);
    face.setAttribute('aria-pressed', String(follow.leader === member));
    face.classList.toggle('elsewhere', isAway);
  }
}
