// Has a member take drawings in that come from others, one after another, and times it. The same runs in Node (node.mjs) and in a browser
// (browser.mjs): both give it what it needs of them.

const LOOK = 500; // arrivals from one look at the limit of time to the next

/** What takes drawings in: what comes for each drawing, and a new member, which takes what comes at a place of a list and tells how many it holds.
 * @typedef {{ items: Uint8Array[], open: () => Promise<{ take: (list: Uint8Array[], at: number) => void, held: () => number }>, atOnce: number }} Taker */

/** Milliseconds of each round, and how many drawings are held at its end; past the limit of seconds, how many were taken.
 * @param {Taker} taker @param {{ order: number[], rounds: number, limit: number }} job @param {() => number} clock in milliseconds */
export async function takeAll({ items, open, atOnce }, { order, rounds, limit }, clock) {
  const inOrder = order.map((place) => items[place]), told = /** @type {any} */ ({ milliseconds: [], size: sizesOf(items) });
  for (let round = 0; round < rounds && !('applied' in told); round += 1) {
    const { take, held } = await open(), begun = clock();
    let at = 0;
    for (; at < inOrder.length; at += atOnce) {
      if (at % LOOK === 0 && clock() - begun > limit * 1000) break;
      take(inOrder, at);
    }
    if (at < inOrder.length) told.applied = at;
    else told.milliseconds.push(clock() - begun);
    told.held = held();
  }
  return told;
}

/** The least, the mean and the greatest number of bytes. */
function sizesOf(items) {
  const sizes = items.map((item) => item.length);
  return [Math.min(...sizes), sizes.reduce((one, other) => one + other, 0) / sizes.length, Math.max(...sizes)];
}

const DIGITS = Array.from({ length: 256 }, (_, byte) => byte.toString(16).padStart(2, '0'));

function hexOf(bytes) {
  let digits = '';
  for (const byte of bytes) digits += DIGITS[byte];
  return digits;
}

/** Where the drawings come from at a judged host: a member, since it has answered. */
const MEMBER = { place: 777n, owner: null };

/** How a host is handed a datagram, and whether it was new: by bytes, or by a line and its block; a judged host also with its origin. */
const WAYS = {
  bytes: (host, now, datagram) => host.came(now, datagram).became === 'new',
  lines: (host, now, datagram) => host.ask(`came ${now} ${hexOf(datagram)}`).lines.at(-1) === 'batch 1 0 0 0',
  'judged by bytes': (host, now, datagram) => host.cameFrom(now, MEMBER, datagram).became === 'new',
};

/** A self-managing host, and its present moment.
 * @returns {number} */
function keeps(host) {
  host.ask('keep 4000 0');
  return 0;
}

/** A judged host, whose first report a member has answered, and the moment of that. */
function judges(host) {
  host.ask('judge 0 4000 0 1764000000000000 - -');
  let now = 0, answer = host.tick(now);
  while (!answer.send.some(isReport)) answer = host.tick(now = answer.due);
  const head = [0x57, 0x42, 1, 2, 0, 0, 0, 44, 0, 0, 0, 9, ...longOf(5), 0, 0, 0, 1, 0, 0, 0, 1, 0, 0, 0, 1, 0, 0, 0, 1];
  host.cameFrom(now, MEMBER, Uint8Array.from([...head, ...longOf(now), ...longOf(0)]));
  return now;
}

const isReport = (datagram) => datagram[3] === 2;

/** The eight bytes of a number. */
const longOf = (number) => new Uint8Array(new BigUint64Array([BigInt(number)]).buffer).reverse();

/** A host over the page's module, which manages itself, or is judged.
 * @param {any} program @param {{ given: string[], pace: number, way: 'bytes' | 'lines' | 'judged by bytes' }} job the datagrams in hexadecimal */
export function byModule(program, { given, pace, way }) {
  const items = given.map((digits) => Uint8Array.from(digits.match(/../g), (pair) => parseInt(pair, 16))), hands = WAYS[way];
  const open = async () => {
    const host = await program.start();
    host.ask('board 1 65535 1 42');
    const since = way === 'judged by bytes' ? judges(host) : keeps(host);
    let held = 0;
    return { take: (list, at) => { if (hands(host, since + pace * at, list[at])) held += 1; }, held: () => held };
  };
  return { items, open, atOnce: 1 };
}

/** How Yjs has a drawing of a page: under its name in a map, or at the end of an array. */
const DRAWS = {
  map: (doc, page, name, operation) => doc.getMap(page).set(name, operation),
  array: (doc, page, name, operation) => doc.getArray(page).push([operation]),
};

/** A document of Yjs, which is handed the update of each drawing. Each source made its own in a document of its own, in which it hears nobody.
 * @param {any} Y @param {{ given: string[], kind: 'map' | 'array', atOnce: number }} job the drawings in words */
export function byYjs(Y, { given, kind, atOnce }) {
  const items = [], docs = new Map(), pages = new Set(), take = atOnce === 1 ? applyOne(Y) : applySome(Y, atOnce);
  for (const line of given) {
    const [, source, page, number] = line.split(' ', 4), operation = line.split(' ').slice(5).join(' ');
    if (!docs.has(source)) docs.set(source, docOf(Y, source, items));
    pages.add(page);
    DRAWS[kind](docs.get(source), page, `${source}/${number}`, operation);
  }
  const sizeIn = (doc, page) => (kind === 'map' ? doc.getMap(page).size : doc.getArray(page).length);
  const open = async () => {
    const doc = new Y.Doc();
    for (const page of pages) sizeIn(doc, page); // so that each is of its kind
    return { take: (list, at) => take(doc, list, at), held: () => [...pages].reduce((sum, page) => sum + sizeIn(doc, page), 0) };
  };
  return { items, open, atOnce };
}

/** A source's document, which tells its updates. */
function docOf(Y, source, updates) {
  const doc = new Y.Doc();
  doc.clientID = Number(source);
  doc.on('update', (update) => updates.push(update));
  return doc;
}

const applyOne = (Y) => (doc, list, at) => Y.applyUpdate(doc, list[at]);

const applySome = (Y, atOnce) => (doc, list, at) => Y.transact(doc, () => { for (const update of list.slice(at, at + atOnce)) Y.applyUpdate(doc, update); });
