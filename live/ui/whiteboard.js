/** The whiteboard over any member: puts the parts of the page together. */
import { nameOf } from './cells.js';
import { Changing } from './changing.js';
import { showChat } from './chat.js';
import { listenToClipboard } from './clipboard.js';
import { $, say, tell } from './dom.js';
import { Faces } from './faces.js';
import { Files } from './files.js';
import { FilmBar } from './film.js';
import { Follow } from './follow.js';
import { Hand, middleOf } from './hand.js';
import { History, hasLetters, kindOf } from './history.js';
import { reachOf } from './eraser.js';
import { KINDS, isTyped } from './inkkinds.js';
import { stayAbove } from './keyboard.js';
import { keysOf } from './keymap.js';
import { Keys } from './keys.js';
import { LOCALE, retold, speak, wording } from './language.js';
import { Layout } from './layout.js';
import { Leafing } from './leafing.js';
import { showHealth, showMembers, showWorse } from './members.js';
import { NOTES, Notes } from './notes.js';
import { Others } from './others.js';
import { Owner } from './owner.js';
import { Overview } from './overview.js';
import { Painter } from './painter.js';
import { showPages } from './pages.js';
import { makePalette } from './palette.js';
import { Pen } from './pen.js';
import { Pointing } from './pointing.js';
import { showProof } from './proof.js';
import { Session } from './session.js';
import { Sight } from './sight.js';
import { Side } from './side.js';
import { State } from './state.js';
import { Steps } from './steps.js';
import { Style } from './style.js';
import { Traffic } from './traffic.js';
import { Typing } from './typing.js';
import { View } from './view.js';
import { Welcome } from './welcome.js';

/** @typedef {import('./types.js').Member} Member */
/** @typedef {import('./types.js').Drawing} Drawing */
/** @typedef {import('./session.js').Taken} Taken */
/** @typedef {import('./cells.js').Cell} Cell */

/** If as many drawings come at once, they are not marked one by one. */
const MANY = 200;

export class Whiteboard {
  /** @param {Member} member */
  constructor(member) {
    this.session = new Session(member);
    this.painter = new Painter($('sheet').querySelector('canvas'));
    this.view = new View($('sheet'), (size) => this.painter.measure(size));
    this.layout = new Layout();
    this.steps = new Steps(this.session);
    this.ink = this.painter.ink;
    this.notes = new Notes(this.session);
    this.style = new Style(this);
    this.pen = new Pen(this);
    this.hand = new Hand(this);
    this.changing = new Changing(this);
    this.painter.parts = this;
    this.steps.itemOf = (drawing) => (this.painter.isInk && this.ink.kept.itemOf(drawing.source, drawing.seq)?.drawings) || [drawing];
    this.typing = new Typing(this);
    this.pointing = new Pointing(this.view, this.hand);
    this.traffic = new Traffic(this.session);
    this.files = new Files(this);
    this.leafing = new Leafing(this);
    this.overview = new Overview(this);
    this.history = new History(this);
    this.others = new Others(this);
    this.owner = new Owner(this);
    this.film = new FilmBar(this.session, this.painter);
    this.sight = new Sight(this);
    this.faces = new Faces(this);
    this.follow = new Follow(this);
    this.side = new Side(this);
    this.state = new State(this);
    this.welcome = new Welcome(this);
    this.openPalette = makePalette((glyph) => this.hand.setGlyph(glyph));
    this.hasTurned = false;
    /** The colours that members have chosen, as they were painted last. */
    this.coloured = '';
  }

  /** Something that is seen has changed. */
  change() {
    this.showUnder();
    this.painter.soon();
    this.others.soon();
  }

  // ---- what is under the hand

  /** What a cell shows, in words.
   * @param {Cell} cell */
  describe(cell) {
    const { session, layout, ink } = this, place = `${cell.x}, ${cell.y}`;
    if (this.painter.isInk) {
      const item = ink.grid.itemAt(middleOf(cell), reachOf(this.view));
      return item ? `${place}   ${wording('by', { what: kindOf(item.drawings[0]), who: session.who(item.source) })}` : place;
    }
    const drawing = this.hand.tool === 'restore' ? layout.hiddenAt(cell) : layout.drawingAt(cell);
    const told = drawing && { what: kindOf(drawing), who: session.who(drawing.source), number: drawing.seq, time: when(drawing.time) };
    return told ? `${place}   ${wording('byWhen', told)}` : place;
  }

  /** What stands at the foot: of ink who drew what is pointed at; of cells what is there, and how large it is that is begun. */
  under() {
    const { hand, ink, session } = this, cell = hand.at(), { gesture, point } = hand;
    if (this.painter.isInk) {
      const item = point && !gesture ? ink.grid.itemAt(point, reachOf(this.view)) : undefined;
      return item ? wording('whoWhen', { who: session.who(item.source), time: when(item.drawings[0].time) }) : '';
    }
    const size = gesture ? `   ${wording('sizeOf', { wide: Math.abs(gesture.to.x - gesture.from.x) + 1, high: Math.abs(gesture.to.y - gesture.from.y) + 1 })}` : '';
    return cell ? this.describe(cell) + size : session.titleOf(session.board.page);
  }

  showUnder() {
    const told = this.under();
    if ($('under').textContent !== told) $('under').textContent = told;
  }

  // ---- what the member tells

  /** @param {import('./types.js').Hello} hello */
  takeHello(hello) {
    $('notice').textContent = wording('youAre', { notice: retold(hello.notice), me: hello.me, mode: retold(hello.mode) });
    showProof(hello.proof);
    for (const id of ['clear', 'delete-page']) $(id).disabled = !this.session.mayClear;
    $('clearing').hidden = hello.othersClear === undefined;
    $('nobody-keeps').hidden = hello.othersClear !== undefined || hello.keeper !== undefined;
    $('others-clear').checked = hello.othersClear !== false;
  }

  /** @param {import('./types.js').Board} board @param {Taken} taken */
  takeBoard(board, taken) {
    if (taken.isTurned) this.painter.cells.forget();
    this.layout.take(board, taken);
    this.ink.take(taken);
    if (taken.isTurned) this.changePage(board);
    else this.tellChange(taken);
    $('hint').hidden = this.session.shown.size + this.session.erased.size > 0;
    this.showText();
    this.change();
  }

  /** The page as text, for who listens: its rows, and the letters of its inks. */
  showText() {
    const letters = [...this.ink.lettered].filter(({ kind }) => !KINDS[kind].isPlain).map((item) => item.letters), text = [...this.session.board.rows, ...letters].join('\n');
    if ($('text').textContent !== text) $('text').textContent = text;
  }

  /** What is selected may have come, or be gone. */
  showChosen() {
    if (!this.hand.selection.size && $('chosen').hidden) return;
    this.style.show();
    this.changing.show();
  }

  /** What others did is marked, and told.
   * @param {Taken} taken */
  tellChange({ gone, added }) {
    const { hello: { me } } = this.session, drawn = added.filter(({ source }) => source !== me), many = gone.length - added.length;
    if (drawn.length < MANY && !this.painter.isInk) drawn.forEach((drawing) => this.painter.cells.mark(drawing));
    if (drawn.length === 1) say(drew(this.session.who(drawn[0].source), drawn[0]));
    else if (drawn.length) say(wording('came', { n: drawn.length }));
    else if (many > 0) say(wording('wereErased', { n: many }));
  }

  /** Drops what was in hand on the page before, and shows all of the new one.
   * @param {import('./types.js').Board} board */
  changePage(board) {
    this.hand.gesture = null;
    this.sight.begin();
    this.follow.goAfter();
    this.leaveNotes(board.page);
    say(wording('pageHas', { page: this.session.titleOf(board.page), n: board.drawops.length }));
  }

  /** The reserved page is turned to by wish alone: a newcomer may hear of it before any other.
   * @param {string} page */
  leaveNotes(page) {
    if (page !== NOTES || this.hasTurned) return;
    this.session.goToPage(this.session.leaves()[0]?.page ?? '1/1');
  }

  // ---- what the hand wishes

  /** Where something is pasted: at what is pointed at, or near the corner.
   * @returns {Cell} */
  place() {
    return this.hand.at() ?? { x: Math.max(0, Math.floor(this.view.left)) + 2, y: Math.max(0, Math.floor(this.view.top)) + 2 };
  }

  undo() {
    if (!this.changing.drop() && !this.pen.undo()) this.steps.undo();
  }

  /** Erases all that the page shows, as one step. */
  clear() {
    const drawops = [...this.session.board.drawops];
    if (!drawops.length || !confirm(wording('askClear', { n: drawops.length }))) return;
    this.hand.change([], drawops);
  }

  /** A double click edits the letters under it, and opens a link.
   * @param {MouseEvent} event */
  edit(event) {
    if (!this.painter.isInk || event.target instanceof HTMLTextAreaElement || !['select', 'text'].includes(this.hand.tool)) return;
    const item = this.ink.grid.itemAt(this.view.pointAt(event), reachOf(this.view));
    if (item && isTyped(item)) this.typing.edit(item);
    if (item && KINDS[item.kind].isLink) open(item.letters, '_blank', 'noopener,noreferrer');
  }

  /** Has the buttons, the keys and the system's wishes heard. */
  listen() {
    const keys = keysOf(this), undo = () => this.undo(), redo = () => this.steps.redo(), menu = ['clear', 'restore-tool', 'help', 'entitle', 'copy-page', 'delete-page'];
    /** @type {Record<string, () => void>} */
    const clicks = { glyph: this.openPalette, undo, redo, back: keys['['], forth: keys[']'], new: () => this.leafing.begin(), help: keys['?'],
      all: () => this.overview.show(), file: () => $('files').showModal(), smaller: keys['-'], larger: keys['+'], clear: () => this.clear(),
      'copy-page': () => this.leafing.copy(this.session.board.page), 'delete-page': () => this.leafing.remove(this.session.board.page) };
    menu.forEach((id) => $(id).addEventListener('click', () => $('files').close()));
    for (const [id, act] of Object.entries(clicks)) $(id).addEventListener('click', () => act());
    for (const button of document.querySelectorAll('[data-tool]')) {
      button.addEventListener('click', () => this.hand.choose(/** @type {any} */ (button).dataset.tool));
    }
    // who clicked goes on at the sheet; who came by keys stays where he is. The row of style is made anew by a click in it, so this comes first
    document.addEventListener('click', (event) => {
      const is = /** @type {HTMLElement} */ (event.target).closest?.('[data-tool], .pages button, #style button, #foot button:not(#state)');
      if (event.detail && is && !document.querySelector('dialog[open]')) this.focusSheet();
    }, true);
    $('others-clear').addEventListener('change', () => this.session.member.clearing?.($('others-clear').checked));
    this.view.sheet.addEventListener('dblclick', (event) => this.edit(event));
    listenToClipboard(this.hand, () => this.place());
    stayAbove(this);
    new Keys(this.view, this.hand, this.pointing, { keys, undo, redo, describe: (cell) => this.describe(cell) });
    this.painter.night.addEventListener('change', () => this.changeColours());
    new ResizeObserver(() => { this.view.resize(); this.follow.goAfter(); }).observe($('sheet'));
  }

  focusSheet() {
    this.view.sheet.focus(/** @type {FocusOptions} */ ({ preventScroll: true, focusVisible: false }));
  }

  /** If somebody has another colour, all is painted again. */
  takeColours() {
    this.faces.colour();
    const told = JSON.stringify([...this.notes.told.colours, ...this.faces.colours]);
    if (told !== this.coloured) this.painter.repaint();
    this.coloured = told;
  }

  /** It has become day or night: all that has the colour of a member is shown anew. */
  changeColours() {
    this.painter.readColours();
    this.session.emit('notes', this.notes.told);
    this.film.paint();
    this.style.show();
  }

  begin() {
    const { session } = this;
    session.on('hello', (hello) => this.takeHello(hello));
    session.on('board', (board, taken) => this.takeBoard(board, taken));
    session.on('ghosts', () => this.painter.soon());
    session.on('notes', () => this.takeColours());
    session.on('fault', tell);
    this.ink.changed = () => { this.sight.show(); this.showText(); this.showChosen(); };
    for (const show of [showChat, showMembers, showHealth, showWorse]) show(this);
    showPages(session);
    this.listen();
    this.hand.choose('pen');
    this.view.fit();
    this.focusSheet();
    session.begin();
  }
}

/** What somebody drew in words, for those who listen.
 * @param {string} who @param {Drawing} drawing */
function drew(who, drawing) {
  const what = kindOf(drawing);
  if (drawing.op === 'text') return wording(hasLetters(drawing) ? 'drewText' : 'drewKind', { who, what });
  return wording('drewAt', { who, what, place: `${drawing.x0}, ${drawing.y0}` });
}

/** When a drawing was made; a number outside these years is shown as it is.
 * @param {string} time microseconds of the day */
function when(time) {
  const date = new Date(Number(time) / 1000), isLikely = Number(date) > Date.UTC(2000, 0) && Number(date) < Date.UTC(2200, 0);
  return isLikely ? date.toLocaleTimeString(LOCALE) : wording('timeIs', { time });
}

/** Opens the whiteboard of a member in the page, and gives a handle on its parts for tests and for who looks in from a console.
 * @param {Member} member */
export function openWhiteboard(member) {
  speak();
  const board = new Whiteboard(member);
  Object.assign(globalThis, { wb: board });
  board.begin();
  return board;
}
