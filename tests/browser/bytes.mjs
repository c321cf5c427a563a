// The blocks of lines, by calls by bytes: what came as events is written as `wb host` writes it.
import { hex, readDatagram } from '../../web/member/datagram.js';
import { unhex } from '../../web/member/host.js';

const BATCHES = { new: 'batch 1 0 0 0', again: 'batch 0 1 0 0', clash: 'batch 0 0 1 0', full: 'batch 0 0 0 1' };
const QUESTIONS = { next: 1, view: 2, gaps: 3, report: 4, pages: 5, known: 6, show: 7 };

const numbers = (bytes) => Array.from({ length: bytes.length / 4 }, (_, i) => new DataView(bytes.buffer, bytes.byteOffset).getUint32(4 * i));

/** A block: these rows, and the next moment that is due; or why the call was refused. */
function blockBy(host, rows, refused) {
  return [...rows, refused === null ? `ok ${host.due() ?? 'never'}` : `refused ${refused}`].map((row) => `${row}\n`).join('');
}

function told(host, { send, became, refused }, isDrawing) {
  const batch = became !== null && !(isDrawing && became === 'new') ? [BATCHES[became]] : [];
  return blockBy(host, [...send.map((bytes) => `send ${hex(bytes)}`), ...batch], refused);
}

/** What the events of a question say. */
const ROWS = {
  view: ({ bytes }) => readDatagram(bytes).words, show: ({ bytes }) => new TextDecoder('latin1').decode(bytes).slice(0, -1), next: ({ bytes }) => `next ${numbers(bytes)[0]}`,
};

function answered(host, word, given) {
  const { events, refused } = host.events(QUESTIONS[word], ...(given.length ? given : [0, 0]));
  const rows = events.map(ROWS[word] ?? (({ bytes }) => numbers(bytes).join(' ')));
  return blockBy(host, ['next', 'show'].includes(word) ? rows : [`${word} ${rows.length}`, ...rows], refused);
}

/** The drawop of a line `add`, with a name that the drawing will not have: what a host says that draws it. */
function draftOf(spelling, line) {
  const [, , time, page, ...operation] = line.split(' ');
  spelling.renew();
  spelling.ask('board 4294967295 1 1 1');
  return spelling.ask(`say draw 4294967295 ${page} 4294967295 ${time} ${operation.join(' ')}`).sent()[0];
}

/** The blocks of a conversation with a host of its own. */
export async function blocksOf(program, lines) {
  const host = await program.start(), spelling = await program.start();
  return lines.map((line) => blockOf(host, line, spelling)).join('');
}

/** What a judged host gives, line by line, as it is dealt with. */
function judgedRows({ dropped, records, drew, send, became, fetch, warning }) {
  const place = fetch && (fetch.owner === null ? fetch.place : `${fetch.place}@${fetch.owner}`), rows = (word, said) => said.map((one) => `${word} ${one}`);
  const names = drew.map((name) => name.split(/[ /]/)).map(([source, creator, number, seq]) => `${creator} ${number} ${source} ${seq}`);
  return [...rows('dropped', dropped === null ? [] : [dropped]), ...rows('record', records), ...rows('drew', names), ...rows('send', send.map(hex)),
    ...rows('became', became === null ? [] : [became === 'full' ? 'left' : became]), ...(fetch ? [`fetch ${place} ${fetch.lacking}`] : []), ...rows('warn', warning === null ? [] : [warning])];
}

/** An origin as a call has it. */
function originOf(word) {
  const [place, owner] = word.split('@');
  return { place: BigInt(place), owner: owner === undefined ? null : BigInt(owner) };
}

/** What a line that acts at a judged host comes to by a call by bytes. */
const JUDGED = {
  came: (host, [now, origin, digits]) => host.cameFrom(Number(now), originOf(origin), unhex(digits)),
  tick: (host, [now]) => host.tick(Number(now)),
  wall: (host, [now, time]) => host.wall(Number(now), Number(time)),
  gone: (host, [now, origin]) => host.gone(Number(now), originOf(origin)),
  add: (host, [now, page, ...operation], spelling) => host.add(Number(now), draftOf(spelling, `add ${now} 77 ${page} ${operation.join(' ')}`)),
};

/** The same at a judged host. By bytes the place of a wrong word is that in a line that has the time too. */
function judgedBlockOf(host, line, spelling) {
  const [word, ...given] = line.split(' ');
  if (word in QUESTIONS) return answered(host, word, given.map(Number));
  if (!(word in JUDGED)) return host.text(line);
  const answer = JUDGED[word](host, given, spelling);
  return blockBy(host, judgedRows(answer), answer.refused && answer.refused.replace('word 6', 'word 5'));
}

/** Hosts that judge. */
const judging = new WeakSet();

/** The block of a line, by a call by bytes where there is one for it. `spelling` is a host that says what a drawing is as bytes. */
export function blockOf(host, line, spelling) {
  const [word, ...given] = line.split(' ');
  if (judging.has(host)) return judgedBlockOf(host, line, spelling);
  if (word === 'judge') judging.add(host);
  if (word === 'came') return told(host, host.came(Number(given[0]), unhex(given[1])), false);
  if (word === 'tick') return told(host, host.tick(Number(given[0])), false);
  if (word === 'add') return told(host, host.add(Number(given[0]), draftOf(spelling, line)), true);
  return word in QUESTIONS ? answered(host, word, given.map(Number)) : host.text(line);
}
