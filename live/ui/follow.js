/** Following somebody: what they have in view is in view here too, until the hand moves the view itself; and calling all to oneself. */
import { $, say, tell } from './dom.js';
import { write } from './keyed.js';
import { wording } from './language.js';
import { viewLine } from './points.js';

/** The cells that stay about the pointer of who is followed, if only that is known. */
const ABOUT = 6;

/** Milliseconds for which we tell a call, and between two tellings of what others wait for; of these who follows tells each third. */
const CALLS = 10_000, BEATS = 1000, FOLLOWS = 3;

export class Follow {
  /** @param {import('./whiteboard.js').Whiteboard} board */
  constructor(board) {
    this.board = board;
    /** Who is followed.
     * @type {number | null} */
    this.leader = null;
    /** The number of our last call, until when we tell it, and the last call of each member that was heeded. */
    this.call = 0;
    this.callsUntil = 0;
    /** @type {Map<number, number>} */
    this.heeded = new Map();
    this.beats = 0;
    const { session, owner } = board;
    session.on('presence', () => { this.heed(); this.goAfter(); });
    session.on('members', ({ members }) => this.leave(members));
    session.on('turning', () => this.stop());
    session.on('notes', () => this.show());
    owner.taken = () => this.stop();
    $('unfollow').addEventListener('click', () => this.stop());
    $('call').addEventListener('click', () => this.callAll());
    setInterval(() => this.beat(), BEATS);
  }

  /** Follows a member, or no more.
   * @param {number | null} member */
  follow(member) {
    const { session, others } = this.board;
    if (member === this.leader) return;
    this.leader = member;
    say(member === null ? wording('followingNobody') : wording('following', { name: session.nameOf(member) }));
    this.show();
    session.emit('followed');
    others.soon();
    this.goAfter();
  }

  stop() {
    if (this.leader !== null) this.follow(null);
  }

  /** The member that is followed is here no more.
   * @param {import('./types.js').Other[]} members */
  leave(members) {
    if (this.leader === null || members.some(({ member }) => member === this.leader)) return;
    tell(wording('notHere', { name: this.board.session.nameOf(this.leader) }));
    this.stop();
  }

  // ---- what others hear

  /** What others hear of it, and what is in view. Who follows tells no view: two that followed each other would never rest.
   * @returns {string[]} */
  lines() {
    const { view } = this.board, calls = performance.now() < this.callsUntil ? [`call ${this.call}`] : [];
    return this.leader === null ? [viewLine(view.boxInUnits()), ...calls] : [`follow ${this.leader}`];
  }

  /** Has everybody follow us. */
  callAll() {
    const { others } = this.board;
    this.stop();
    others.setTold(true);
    [this.call, this.callsUntil] = [Date.now() % 2 ** 32, performance.now() + CALLS];
    others.soon();
    tell(wording('calledAll'), true);
  }

  /** Tells again what somebody waits for, since datagrams are lost. */
  beat() {
    const { others, session } = this.board, isAwaited = others.followersOf(session.hello.me).length > 0 || performance.now() < this.callsUntil;
    this.beats += 1;
    if (isAwaited || (this.leader !== null && this.beats % FOLLOWS === 0)) others.again();
  }

  // ---- what is heard

  /** Follows who calls. */
  heed() {
    const { others, faces } = this.board;
    for (const [member, { beside: { call } }] of others.points) {
      if (call === null || this.heeded.get(member) === call || !faces.has(member)) continue;
      this.heeded.set(member, call);
      this.follow(member);
    }
  }

  /** Whose view is to be shown: of who is followed, or of whom that member follows. Null if that is nobody, or we are.
   * @returns {import('./others.js').Point | null} */
  aim() {
    const { others, session } = this.board, /** @type {Set<number>} */ seen = new Set();
    let member = this.leader;
    while (member !== null && member !== session.hello.me && !seen.has(member)) {
      const point = others.points.get(member);
      if (!point || point.beside.follows === null) return point ?? null;
      seen.add(member);
      member = point.beside.follows;
    }
    // whoever follows us, straight or by others, can't be followed
    if (member !== null) this.stop();
    return null;
  }

  /** Goes to the page of who is followed, and shows what of it they have in view. */
  goAfter() {
    if (this.leader === null) return;
    this.board.owner.offer(() => this.go());
    this.show();
  }

  go() {
    const { session, sight, view } = this.board, point = this.aim();
    if (!point) return;
    const { pointed: { page, cell }, beside } = point;
    sight.stay();
    if (page !== session.board.page) {
      if (session.wished !== page) session.goToPage(page, true);
    } else if (beside.view) view.showBox(beside.view);
    else if (cell) view.reveal({ x: cell[0], y: cell[1] }, ABOUT);
    this.show();
  }

  /** The frame about the sheet, in the colour of who is followed. */
  show() {
    const { session, painter, owner } = this.board, frame = $('following');
    frame.hidden = this.leader === null;
    if (this.leader === null) return;
    frame.style.setProperty('--c', painter.tintOf(this.leader));
    write(frame.querySelector('span'), wording(owner.wish ? 'followingSoon' : 'following', { name: session.nameOf(this.leader) }));
  }
}
