/** A Yjs document on a page of a whiteboard: its updates are texts of the page, in pieces, which may come in any order and any number of times. */
import { EventEmitter } from 'node:events';
import * as Y from 'yjs';

/** Bytes of a piece: 56 letters, where a text of the board has 64 at most, and the head of a piece a few. */
const PIECE = 42;

/** Milliseconds in which what is typed becomes one update, and after which a page that has changed is read. */
const PAUSE = 100, SOON = 20;

/** The page is read whole, so it is read for one part of the time at most. */
const READING_PART = 5;

/** The board has no room for an update. The document has it; the others do not. */
export class BoardFull extends Error {}

/** The pieces of an update: `+2:..`, `1:..`, `0:..`, with how many follow each. Their numbers follow one another.
 * @param {Uint8Array} update */
export function pieces(update) {
  const count = Math.ceil(update.length / PIECE);
  return Array.from({ length: count }, (_, at) => {
    const letters = btoa(String.fromCharCode(...update.subarray(at * PIECE, (at + 1) * PIECE)));
    return `${at ? '' : '+'}${count - 1 - at}:${letters}`;
  });
}

/** The updates of which all pieces are there, but for those that are known, each with the name of its first piece.
 * @param {Map<string, string>} texts the text of each piece by `SOURCE NUMBER` @param {Set<string>} known @returns {[string, Uint8Array][]} */
export function updates(texts, known) {
  const whole = [];
  for (const [name, text] of texts) {
    if (!text.startsWith('+') || known.has(name)) continue;
    const [source, first] = name.split(' ').map(Number), count = parseInt(text.slice(1), 10) + 1;
    const parts = [];
    for (let at = 0, part; at < count && (part = texts.get(`${source} ${first + at}`)?.replace('+', '').split(':'))?.[0] === `${count - 1 - at}`; at += 1) parts.push(part[1]);
    if (parts.length === count) whole.push([name, Uint8Array.from(atob(parts.join('')), (letter) => letter.charCodeAt(0))]);
  }
  return whole;
}

/** It tells `fault` when what was typed can't be drawn, as `BoardFull`: then it draws no more. If nobody listens, that is an unhandled rejection. */
export class Provider extends EventEmitter {
  /** @param {Y.Doc} doc @param {import('wb/node.js').Member} member @param {string} page as `1/1` */
  constructor(doc, member, page) {
    super();
    this.doc = doc;
    this.member = member;
    this.page = page;
    /** Names of updates that the document has. */
    this.has = new Set();
    this.typed = [];
    this.timer = this.reading = null;
    this.pause = SOON;
    this.isOpen = false;
    doc.on('update', (update, origin) => {
      if (origin === this || !this.isOpen) return;
      this.typed.push(update);
      this.timer ??= setTimeout(() => this.send(), PAUSE);
    });
    member.on('change', (changed) => {
      if (changed === page) this.reading ??= setTimeout(() => this.read(), this.pause);
    });
    this.open();
  }

  /** Once the member may draw, draws what the document has and the page has not. */
  async open() {
    await this.member.ready();
    if (this.member.isOver) return;
    this.read();
    const there = new Y.Doc();
    for (const [, update] of this.found(new Set())) apply(there, update);
    const lacking = Y.encodeStateAsUpdate(this.doc, Y.encodeStateVector(there));
    this.isOpen = true;
    // an empty update has two bytes
    if (lacking.length > 2) this.typed.push(lacking);
    await this.send();
  }

  /** Draws what was typed. */
  async send() {
    this.timer = null;
    if (!this.isOpen || !this.typed.length) return;
    const update = Y.mergeUpdates(this.typed.splice(0));
    try {
      const answers = await this.member.drawAll(this.page, pieces(update).map((piece) => `text 0 0 "${piece}"`));
      if (answers.some(({ became }) => became === 'full')) throw new BoardFull('the board is full: what was typed is in this document alone');
    } catch (fault) {
      this.isOpen = false;
      if (!this.emit('fault', fault)) throw fault;
    }
  }

  /** The updates on the page that have become whole, but for those that are known.
   * @param {Set<string>} known */
  found(known) {
    const texts = new Map();
    for (const { source, number, operation } of this.member.host.view(this.page)) {
      const text = /^text \d+ \d+ "(\+?\d+:.*)"$/.exec(operation)?.[1];
      if (text) texts.set(`${source} ${number}`, text);
    }
    return updates(texts, known);
  }

  /** Gives the document the updates that have become whole. */
  read() {
    this.reading = null;
    if (this.member.isOver) return;
    const began = performance.now();
    for (const [name, update] of this.found(this.has)) {
      this.has.add(name);
      apply(this.doc, update, this);
    }
    this.pause = SOON + (READING_PART - 1) * (performance.now() - began);
  }
}

/** Gives a document an update.
 * @param {Y.Doc} doc @param {Uint8Array} update @param {unknown} [origin] */
function apply(doc, update, origin) {
  try {
    Y.applyUpdate(doc, update, origin);
  } catch {
    // somebody drew a text that looks like an update and is none
  }
}
