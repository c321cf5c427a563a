// Stands for Yjs: a document is a set of items, and an update has some of these.
import { EventEmitter } from 'node:events';

const made = (items) => new TextEncoder().encode(items.length ? JSON.stringify(items) : '[]');
const read = (update) => JSON.parse(new TextDecoder().decode(update));

export class Doc extends EventEmitter {
  items = new Map();

  /** @param {string} item */
  insert(item) {
    applyUpdate(this, made([item]));
  }
}

export function applyUpdate(doc, update, origin) {
  for (const item of read(update)) doc.items.set(item, true);
  doc.emit('update', update, origin);
}

export const mergeUpdates = (many) => made([...new Set(many.flatMap(read))]);
export const encodeStateVector = (doc) => made([...doc.items.keys()]);

export function encodeStateAsUpdate(doc, vector = made([])) {
  const there = new Set(read(vector));
  return made([...doc.items.keys()].filter((item) => !there.has(item)));
}
