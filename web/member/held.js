/** What a record has made: its board, the moment of its last line, and the lines that a judged host takes. As `live/held.py`. */
import { readDatagram, unhex } from './datagram.js';
import { drawopOf } from './views.js';

/** @typedef {{ board: string, moment: number, lines: string[] }} Held */

/** A line with a datagram in hexadecimal, and a report in words. */
const HEX = /^(?:datagram|arrive|hear) ((?:[0-9a-f]{2})*)$/i, REPORT = /^(?:say )?(?:page-state (\d+)|session-message (\d+) \d+) (\S+)/;

/** Where the digits of a datagram have its kind, and those of a drawop. */
const KIND_AT = 6, DRAWOP = '01';

/** Of the lines of a record that change a host.
 * @param {string[]} acts @returns {Held} */
export function heldOf(acts) {
  const [board, ...rest] = acts, me = Number(board.split(' ')[1]), lines = rest.flatMap((line) => heldIn(line, me) ?? []);
  return { board, moment: rest.reduce((latest, line) => (line.startsWith('tick ') ? Math.max(latest, Number(line.slice(5))) : latest), 0), lines };
}

/** What a judged host takes of a line: a drawop, who owns a number, or a mark of our number.
 * @param {string} line @param {number} me */
function heldIn(line, me) {
  if (/^(?:(?:say )?draw|owner) /.test(line)) return line;
  const [, digits] = HEX.exec(line) ?? [];
  if (digits?.slice(KIND_AT, KIND_AT + 2) === DRAWOP) return `datagram ${digits}`; // the host reads it
  if (digits !== undefined) return markIn(readDatagram(unhex(digits)), me);
  const [, state, message, page] = REPORT.exec(line) ?? [];
  return page && markOf(state ?? message, page, new RegExp(` ${me}=(\\d+)`).exec(line)?.[1], me);
}

/** The line of a report in hexadecimal.
 * @param {import('./datagram.js').Datagram | null} report @param {number} me */
function markIn(report, me) {
  const [, high] = report?.marks.find(([source]) => source === me) ?? [];
  return report && markOf(report.speaker, report.page, high, me);
}

/** The line of a report that has our mark alone.
 * @param {string | number} speaker @param {string} page @param {string | number | undefined} high @param {number} me */
const markOf = (speaker, page, high, me) => (high === undefined ? null : `page-state ${speaker} ${page} ${me}=${high}`);

/** The drawop of a line that a host took.
 * @param {string} line */
export function drawopIn(line) {
  const [, digits] = HEX.exec(line) ?? [];
  return drawopOf(digits === undefined ? line.slice(line.indexOf('draw ')) : readDatagram(unhex(digits))?.words ?? '');
}

/** The name of the drawop of a line that a record has of others. In hexadecimal its source, page and number stand after the head.
 * @param {string} line */
export function nameIn(line) {
  if (line.startsWith('draw ')) return line.split(' ', 4).slice(1).join(' ');
  const [source, creator, page, seq] = [16, 24, 32, 40].map((at) => parseInt(line.slice('datagram '.length + at, 'datagram '.length + at + 8), 16));
  return `${source} ${creator}/${page} ${seq}`;
}

/** The drawops of a record as another member has them: what its own member drew is a datagram there, which a host of that number says.
 * @param {import('./host.js').Program} program @param {Held} held */
export async function linesOfOthers(program, { board, lines }) {
  const drawn = lines.filter((line) => !line.startsWith('page-state ')), host = await program.start();
  host.ask(board);
  return drawn.flatMap((line) => (line.startsWith('say ') ? host.ask(line).said('send').map((digits) => `datagram ${digits}`) : line));
}
