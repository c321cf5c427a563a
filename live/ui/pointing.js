/** Mouse, pen and fingers on the sheet. */

/** @typedef {import('./view.js').View} View */
/** @typedef {import('./hand.js').Hand} Hand */
/** What the other end of a pen has for its button, and the button at its side. */
const ERASER = 5, SIDE = 2;

/** Points of the screen within which a mouse or a pen takes what is drawn, and a finger. */
const REACH = 7, FINGER = 16;

/** The middle of the fingers, and how far two of them are apart.
 * @typedef {{ x: number, y: number, spread: number }} Middle */

export class Pointing {
  /** @param {View} view @param {Hand} hand */
  constructor(view, hand) {
    this.view = view;
    this.hand = hand;
    /** @type {Map<number, PointerEvent>} */
    this.fingers = new Map();
    /** Where a move of the sheet began.
     * @type {(Middle & { wide: number, over: { x: number, y: number } }) | null} */
    this.pan = null;
    this.isSpaced = false;
    /** Whether there is a stylus here: then fingers, and the palm of the hand, move the sheet and draw nothing. */
    this.hasStylus = false;
    /** Whether the pen that is down tells how hard it is pressed. */
    this.isPressed = false;
    const { sheet } = view;
    sheet.addEventListener('pointerdown', (event) => this.down(event));
    sheet.addEventListener('pointermove', (event) => this.move(event));
    sheet.addEventListener('pointerup', (event) => this.up(event));
    sheet.addEventListener('pointercancel', (event) => this.cancel(event));
    // the button of a pen opens no menu
    sheet.addEventListener('contextmenu', (event) => /** @type {PointerEvent} */ (event).pointerType === 'mouse' || event.preventDefault());
    sheet.addEventListener('pointerleave', () => {
      [hand.pointer, hand.point] = [null, null];
      hand.changed();
    });
    sheet.addEventListener('wheel', (event) => this.wheel(event), { passive: false });
  }

  /** The space bar is held, or no more.
   * @param {boolean} is */
  space(is) {
    this.isSpaced = is;
    this.view.sheet.classList.toggle('grab', is);
  }

  /** The points of the page that a movement went over.
   * @param {PointerEvent} event @returns {import('./inkspeed.js').Timed[]} */
  pointsOf(event) {
    const events = event.getCoalescedEvents?.() ?? [];
    return (events.length ? events : [event]).map((each) => ({ ...this.view.pointAt(each), time: each.timeStamp, ...(this.isPressed ? { pressure: each.pressure } : {}) }));
  }

  isStylusDown() {
    return [...this.fingers.values()].some(({ pointerType }) => pointerType === 'pen');
  }

  /** @returns {Middle} */
  middle() {
    const [a, other] = [...this.fingers.values()], b = other ?? a;
    return { x: (a.clientX + b.clientX) / 2, y: (a.clientY + b.clientY) / 2, spread: Math.hypot(a.clientX - b.clientX, a.clientY - b.clientY) };
  }

  startPan() {
    const { view } = this, middle = this.middle(), box = view.sheet.getBoundingClientRect();
    this.hand.parts.owner.take();
    this.hand.drop();
    this.pan = { ...middle, wide: view.wide,
      over: { x: view.left + (middle.x - box.left) / view.wide, y: view.top + (middle.y - box.top) / view.high } };
  }

  movePan() {
    const { view, pan } = this, now = this.middle(), box = view.sheet.getBoundingClientRect();
    if (!pan) return;
    if (pan.spread && now.spread) view.setSize(pan.wide * (now.spread / pan.spread));
    // the cell that was under the middle of the fingers stays there
    view.goTo(pan.over.x - (now.x - box.left) / view.wide, pan.over.y - (now.y - box.top) / view.high);
  }

  /** @param {PointerEvent} event */
  down(event) {
    const { view, hand } = this, { sheet } = view;
    const isTouch = event.pointerType === 'touch';
    const isPen = event.pointerType === 'pen', isErasing = isPen && event.button === ERASER;
    if (event.target instanceof HTMLTextAreaElement || (event.button > 1 && !isErasing && !(isPen && event.button === SIDE))) return;
    event.preventDefault();
    this.hasStylus ||= isPen;
    view.reach = isTouch ? FINGER : REACH;
    if (isPen && event.button === SIDE && hand.tool !== 'select') hand.choose('select');
    if (isTouch && this.isStylusDown()) return;
    sheet.focus(/** @type {FocusOptions} */ ({ preventScroll: true, focusVisible: false }));
    sheet.setPointerCapture(event.pointerId);
    this.fingers.set(event.pointerId, event);
    hand.cursor.on = false;
    hand.pointer = view.cellAt(event);
    hand.point = view.pointAt(event);
    // a pen that is pressed as hard everywhere tells nothing of it
    this.isPressed = isPen && event.pressure > 0 && event.pressure !== 0.5;
    if (this.fingers.size > 1 || this.isSpaced || hand.tool === 'hand' || event.button === 1 || (isTouch && this.hasStylus)) this.startPan();
    else hand.begin(hand.pointer, this.pointsOf(event)[0], { isShifted: event.shiftKey, isPressed: this.isPressed, tool: isErasing ? 'erase' : undefined });
  }

  /** @param {PointerEvent} event */
  move(event) {
    const { view, hand } = this, isDown = this.fingers.has(event.pointerId);
    if (isDown) this.fingers.set(event.pointerId, event);
    else if (this.fingers.size) return;
    const isHover = event.pointerType === 'touch' && !hand.gesture;
    [hand.pointer, hand.point] = isHover ? [null, null] : [view.cellAt(event), view.pointAt(event)];
    if (this.pan) this.movePan();
    else if (hand.gesture) hand.move(hand.pointer, this.pointsOf(event), { isShifted: event.shiftKey });
    else hand.changed();
  }

  /** @param {PointerEvent} event */
  up(event) {
    const { hand } = this;
    if (!this.fingers.delete(event.pointerId)) return;
    if (event.pointerType === 'touch') [hand.pointer, hand.point] = [null, null];
    if (!this.pan) {
      if (hand.gesture) hand.finish();
      return;
    }
    this.pan = null;
    if (this.fingers.size) this.startPan();
  }

  /** @param {PointerEvent} event */
  cancel(event) {
    if (!this.fingers.delete(event.pointerId)) return;
    this.pan = null;
    this.hand.drop();
  }

  /** @param {WheelEvent} event */
  wheel(event) {
    event.preventDefault();
    this.hand.parts.owner.take();
    const { view } = this, unit = event.deltaMode ? 1 : 1 / view.high, box = view.sheet.getBoundingClientRect();
    const [across, down] = event.shiftKey ? [event.deltaY, 0] : [event.deltaX, event.deltaY];
    if (event.ctrlKey) view.zoom(-event.deltaY * (event.deltaMode ? 0.2 : 0.01), { x: event.clientX - box.left, y: event.clientY - box.top });
    else view.goTo(view.left + across * unit * 2, view.top + down * unit);
  }
}
