// Drawings and ink beside the vectors of the folder WB_VECTORS, and beside what the package for Python wrote, in WB_WRITTEN.
import { readFileSync } from 'node:fs';
import test from 'node:test';
import { draftOf, drawingIn, drawopOf, wordsOf } from 'wb/drawings.js';
import { inkOf, link, placed, read, shape, stroke, words } from 'wb/ink.js';
import { check } from '../check.mjs';

const vectors = (name) => JSON.parse(readFileSync(`${process.env.WB_VECTORS}/${name}.json`, 'utf8'));
const hex = (bytes) => bytes && Buffer.from(bytes).toString('hex'), DRAFT = 'ffffffff';

test('datagrams', () => {
  for (const { words: told, hex: digits } of vectors('datagrams').datagrams) {
    const drawop = drawopOf(new Uint8Array(Buffer.from(digits, 'hex')));
    check(`the drawop of ${told}`, drawop && `draw ${drawop.source} ${drawop.page} ${drawop.number} ${drawop.time} ${drawop.operation}`, told.startsWith('draw ') ? told : null);
    if (!drawop) continue;
    check('its words', wordsOf(drawingIn(drawop.operation)), drawop.operation);
    const nameless = `${digits.slice(0, 16)}${DRAFT}${digits.slice(24, 40)}${DRAFT}${digits.slice(48)}`;
    const isOwn = digits.startsWith(`${DRAFT}${DRAFT}`, 66) && ['04', '05'].includes(digits.slice(64, 66));
    check('its bytes, without a name', hex(draftOf(drawop.page, drawop.time, drawop.operation)), isOwn ? null : nameless);
  }
});

test('what is no drawing', () => {
  for (const none of ['line 0 0 4096 0 *', 'line 0 0 4 0 **', 'text 0 0 ""', 'text 0 0 "\u{1f600}"', `text 0 0 "${'x'.repeat(65)}"`, 'delete 1 0', 'frame 0 0 1 1', 'circle 1 2 3']) {
    check(none.slice(0, 20), draftOf('1/1', 1, none), null);
  }
});

test('ink', () => {
  const brief = (ink) => ink && { ...ink, points: ink.points.map(({ x, y }) => [x, y]) };
  for (const { text, ink } of vectors('ink').reads) check(`ink ${text}`, brief(read(text)), brief(ink));
  for (const { text } of vectors('ink').plain) check(`no ink ${text}`, read(text), null);
  check('it has its place', placed('~s$1!hV#HJ', 64), { kind: 'text', x: 64, y: 4001, text: '~s$1!hV#HJ' });
  check('and is read there', inkOf({ source: 1, page: '1/1', number: 1, time: 1n, operation: wordsOf(placed('~s$1!hV#HJ', 0)) })?.kind, 's');
});

test('a stroke goes by all its points', () => {
  const way = Array.from({ length: 200 }, (_, at) => ({ x: 6400 + 40 * at, y: 12_000 + Math.round(900 * Math.sin(at / 9)) }));
  const inks = stroke(way, { colour: 1 }).map(read), ends = inks.flatMap(({ points, goesOn }) => (goesOn ? points.slice(1) : points));
  const off = Math.max(...way.map(({ x, y }) => Math.min(...ends.map((end) => Math.max(Math.abs(end.x - x), Math.abs(end.y - y))))));
  check('and each text after the first goes on', [off <= 10, inks[0].goesOn, inks.slice(1).every(({ goesOn }) => goesOn)], [true, false, true]);
});

test('both packages write one ink', () => {
  check('shapes, words and a link', [shape('n', [{ x: 640, y: 1200 }, { x: 1280, y: 2400 }], { colour: 3, flag: 1, letters: 'Größe\n≈ 漢 😀, and more than one text takes at most' }),
    shape('l', [{ x: 640, y: 1200 }, { x: 6400, y: 2400 }], { colour: 2, width: 4, flag: 5 }), words({ x: 1, y: 2 }, 'a~b', { size: 3, font: 1 }),
    link({ x: 640, y: 1200 }, 'https://example.org/a~b', { colour: 0, width: 3 })], JSON.parse(process.env.WB_WRITTEN));
});
