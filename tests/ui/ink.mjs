// What the page reads and writes as ink, with values from outside. Words are the file of vectors. Prints a list of what is wrong, as JSON.
// With `read` behind it reads texts and drawops from the input, and prints what they are, for a comparison with another reader.
import { readFileSync } from 'node:fs';
import { escaped, textOf } from '../../live/ui/exports.js';
import { readInk } from '../../live/ui/ink.js';
import { along, bend, off } from '../../live/ui/inkcurves.js';
import { fitted } from '../../live/ui/inkfitting.js';
import { broken } from '../../live/ui/inkfonts.js';
import { Items, itemsOf } from '../../live/ui/inkitems.js';
import { readLetters, writeLetters } from '../../live/ui/inkletters.js';
import { dashesOf } from '../../live/ui/inkpaths.js';
import { svgOfInk } from '../../live/ui/inksvg.js';
import { FIRST_ROW, PAGE_HIGH, PAGE_WIDE, numberOf, spelled, valueFor, wayOf } from '../../live/ui/inksigns.js';
import { isAgain, isJoined, joined, keptInks, movedInk, placed, recoloured, restyled, writeLink, writeShape, writeStroke, writeWords } from '../../live/ui/inkwriting.js';
import { WORK, withinWork, workOf } from '../../live/ui/inkwork.js';
import { inTurn } from '../../live/ui/others.js';
import { awayFrom } from './away.mjs';

const wrong = [];
let checked = 0;

function check(name, found, wanted) {
  checked += 1;
  if (JSON.stringify(found) !== JSON.stringify(wanted)) wrong.push(`${name}: ${JSON.stringify(found)}, not ${JSON.stringify(wanted)}`);
}

/** Numbers below a bound, the same in each run. */
const chanceOf = (seed) => (most) => {
  seed = (Math.imul(seed, 1664525) + 1013904223) >>> 0;
  return Math.floor((seed / 2 ** 32) * most);
};

const told = ({ x, y, up, pressure }) => ({ x, y, ...(up ? { lift: true } : {}), ...(pressure === undefined ? {} : { pressure: Math.round(90 * pressure) }) });
const toldInk = (ink) => ink && { ...ink, points: ink.points.map(told) };
const toldItem = ({ drawings, points, letters }) => ({ source: drawings[0].source, number: drawings[0].seq, inks: drawings.length, points: points.map(told), letters });
const drawn = ({ source, number, time, row, text }) => ({ op: 'text', x: 0, y: row, text, source, seq: number, time: String(time) });
const isInkItem = ({ kind }) => kind.length === 1;
const toldItems = (drawops) => itemsOf(drawops.map(drawn)).filter(isInkItem).map(toldItem);

/** Texts as the drawings of one source. */
const drawings = (texts, source = 1, first = 1) => texts.map((text, i) => ({ ...placed(text, i), source, seq: first + i, time: String(first + i) }));

// ---- reading

function testVectors({ reads, plain, items }) {
  for (const { what, text, ink } of reads) check(`reads: ${what}`, toldInk(readInk(text)), ink);
  for (const { what, text } of plain) check(`plain text: ${what}`, readInk(text), null);
  for (const { what, drawops, items: wanted } of items) check(`items: ${what}`, toldItems(drawops), wanted);
}

/** Each text that reads is written from what it reads as. */
function testBack({ reads }) {
  for (const { what, text } of reads) {
    const { kind, colour, width, flag, goesOn, points, letters } = readInk(text), look = { kind, colour, width, scale: flag };
    if (goesOn && kind === 't') continue;
    const texts = 'shv'.includes(kind) ? writeStroke(look, points, goesOn).map((written) => written.text)
      : kind === 't' ? writeWords(look, flag, points[0], letters) : kind === 'k' ? [writeLink(look, points[0], letters)] : writeShape(kind, look, flag, points, letters);
    check(`writes: ${what}`, texts, [text]);
  }
}

function testSigns() {
  check('values of signs', ['!', '#', '[', ']', '}', '~', '"', '\\', ' '].map(numberOf), [0, 1, 57, 58, 90, 91, null, null, null]);
  check('numbers', [spelled(0, 3), spelled(262143, 3), numberOf('@|E'), numberOf('](Y')], ['!!!', '@|E', 262143, 491519]);
  check('ways', [0, 10, 25, 44, 45, 46, 65, 66, 80, 81, 90].map(wayOf), [-100, -50, -20, -1, 0, 1, 20, 22, 50, 55, 100]);
  check('each way has its value', Array.from({ length: 91 }, (_, value) => valueFor(wayOf(value)) === value).every(Boolean), true);
  check('and each number the nearest', Array.from({ length: 201 }, (_, i) => i - 100).filter((way) => Math.abs(wayOf(valueFor(way)) - way) > 2), []);
}

function testLetters() {
  const all = [...Array(0x5f0e0).keys()].filter((code) => code === 10 || (code >= 32 && code !== 127 && (code < 0xd800 || code > 0xdfff)));
  check('each letter is read as it was written', all.filter((code) => readLetters(writeLetters(String.fromCodePoint(code)).join('')) !== String.fromCodePoint(code)), []);
  check('letters that there are not', writeLetters('a\t\u007f\ud800\u{5f0e0}\u{10ffff}').join(''), 'a?????');
  check('a row of 3999 is no ink', itemsOf(drawings(['~s$1!hV#HJ']).map((drawing) => ({ ...drawing, y: FIRST_ROW - 1 })))[0].kind, 'text');
}

// ---- writing

/** The wanted points that are not met in the order of the ink's points, each as near as told. */
function missed(wanted, points, near, isPressed) {
  let at = 0;
  return wanted.filter((point, i) => {
    const isMet = (found) => Math.abs(found.x - point.x) <= near && Math.abs(found.y - point.y) <= near && (i === 0 || Boolean(found.up) === Boolean(point.up))
      && (!isPressed || Math.abs((found.pressure ?? -1) - point.pressure) <= 0.5 / 90 + 1e-9);
    for (let k = at; k < points.length; k += 1) {
      if (isMet(points[k])) { at = k + 1; return false; }
    }
    return true;
  });
}

/** A stroke at random: short steps, far ones, lifts and turns, up to the edges of the page. */
function strokeOf(chance, scale) {
  const at = { x: chance(PAGE_WIDE), y: chance(PAGE_HIGH) }, far = [8, 60, 400, 3000][chance(4)] * 2 ** scale;
  return Array.from({ length: 1 + chance(60) }, (_, i) => {
    at.x = Math.min(Math.max(at.x + chance(2 * far + 1) - far, 0), PAGE_WIDE - 1);
    at.y = Math.min(Math.max(at.y + chance(2 * far + 1) - far, 0), PAGE_HIGH - 1);
    return { ...at, ...(i && chance(6) === 0 ? { up: true } : {}), pressure: chance(91) / 90 };
  });
}

function testStrokes() {
  const chance = chanceOf(5);
  for (const kind of ['s', 'h', 'v']) {
    for (let scale = 0; scale < 8; scale += 1) {
      for (let many = 0; many < 6; many += 1) {
        const points = strokeOf(chance, scale), look = { kind, colour: chance(10), width: chance(9), scale }, texts = writeStroke(look, points).map(({ text }) => text);
        const inks = texts.map(readInk), items = itemsOf(drawings(texts)), found = items.flatMap((item) => item.points);
        check(`texts of a ${kind} of scale ${scale} read`, inks.filter((ink) => ink?.kind !== kind || ink.colour !== look.colour || ink.width !== look.width || ink.flag < scale), []);
        check(`a ${kind} of scale ${scale} is one item`, items.length, Math.ceil(texts.length / 255));
        check(`a ${kind} of scale ${scale} is there`, missed(points, found, 2.5 * 2 ** scale, kind === 'v'), []);
      }
    }
  }
}

function testCurves({ curves }) {
  const rounded = ({ x, y }) => ({ x: Math.round(1000 * x) / 1000, y: Math.round(1000 * y) / 1000 });
  for (const { what, points, cubics } of curves) {
    const stroke = points.map(({ x, y, lift }) => ({ x, y, ...(lift ? { up: true } : {}) })), steps = [...stroke.keys()].slice(1).filter((i) => !stroke[i].up).map((i) => i - 1);
    check(`curve: ${what}`, steps.map((i) => ({ from: rounded(stroke[i]), middles: bend(stroke, i).map(rounded), to: rounded(stroke[i + 1]) })), cubics);
  }
  const at = (part) => along({ x: 0, y: 0 }, { x: 0, y: 100 }, { x: 100, y: 100 }, { x: 100, y: 0 }, part);
  check('points of a cubic', [at(0), at(0.5), at(1)], [{ x: 0, y: 0 }, { x: 50, y: 75 }, { x: 100, y: 0 }]);
  check('how far off a way', [{ x: 5, y: 3 }, { x: -3, y: 4 }, { x: 13, y: -4 }].map((point) => off(point, { x: 0, y: 0 }, { x: 10, y: 0 })), [3, 5, 5]);
  check('of no length', off({ x: 3, y: 4 }, { x: 0, y: 0 }, { x: 0, y: 0 }), 5);
}

/** Points of the screen, of 6.4 units each: what a mouse tells at 100 %. */
const UNITS = 6.4;
const handOf = (many, at) => Array.from({ length: many }, (_, i) => at(i)).map(({ x, y }) => ({ x: UNITS * Math.round(x), y: UNITS * Math.round(y) }));

function testHands() {
  const look = { kind: 's', colour: 0, width: 2, scale: 1, isFree: true }, near = 0.55 * UNITS;
  const hands = { straight: [handOf(120, (i) => ({ x: 300 + 7.5 * i, y: 400 })), 1], slanted: [handOf(120, (i) => ({ x: 300 + 6 * i, y: 400 + 4.5 * i })), 1],
    circle: [handOf(240, (i) => ({ x: 900 + 150 * Math.cos(i / 38), y: 900 + 150 * Math.sin(i / 38) })), 2],
    wave: [handOf(240, (i) => ({ x: 300 + 4 * i, y: 900 + 60 * Math.sin(i / 12) })), 2],
    arc: [handOf(41, (i) => ({ x: 100 + 22.5 * i, y: 800 - 180 * Math.sin((Math.PI * i) / 40) })), 1],
    fast: [handOf(12, (i) => ({ x: 900 + 500 * Math.cos(i / 3.5), y: 900 + 500 * Math.sin(i / 3.5) })), 2],
    zigzag: [handOf(100, (i) => ({ x: 300 + 3 * i, y: 900 + 5 * (i % 20 < 10 ? i % 20 : 20 - (i % 20)) })), 1] };
  for (const [name, [hand, most]] of Object.entries(hands)) {
    const texts = writeStroke(look, fitted(hand, near)).map(({ text }) => text), [{ points }] = itemsOf(drawings(texts));
    check(`${name}: texts`, texts.length <= most, true);
    check(`${name}: within one and a third points of the screen`, awayFrom(hand, points) < 1.34 * UNITS, true);
  }
  const from = { x: 20000, y: 20000 }, ends = Array.from({ length: 90 }, (_, i) => (i * Math.PI) / 180).map((turn) => ({ x: 20000 + Math.round(5760 * Math.cos(turn)), y: 20000 + Math.round(5760 * Math.sin(turn)) }));
  const ways = ends.map((to) => ({ to, texts: writeStroke(look, [from, to]).map(({ text }) => readInk(text)) }));
  check('a straight stroke of 900 points, in any direction, is one text', ways.filter(({ texts }) => texts.length > 1), []);
  const beside = (point, to) => Math.abs((point.x - from.x) * (to.y - from.y) - (point.y - from.y) * (to.x - from.x)) / 5760;
  check('and up to its end straight within two units, a third of a point of the screen', ways.filter(({ to, texts: [{ points }] }) => Math.max(...points.slice(0, -1).map((point) => beside(point, to))) > 2), []);
  check('a dot', fitted([{ x: 5.4, y: 7.6 }], 1), [{ x: 5, y: 8 }]);
  check('what else a point has stays', fitted([{ x: 1, y: 1, i: 7 }, { x: 9, y: 1, i: 8 }], 1).map(({ i }) => i), [7, 8]);
}

/** Points that may lie elsewhere on the curve: each text reads, and ends and corners are met. */
function testFree() {
  const chance = chanceOf(11);
  for (let n = 0; n < 60; n += 1) {
    const scale = n % 8, points = strokeOf(chance, scale), look = { kind: 'svh'[n % 3], colour: chance(10), width: chance(9), scale, isFree: true }, texts = writeStroke(look, points).map(({ text }) => text);
    check(`texts of a free stroke read, ${n}`, texts.filter((text) => !readInk(text)), []);
    const items = itemsOf(drawings(texts)), ends = points.filter((_, i) => i === 0 || i === points.length - 1 || points[i].up || points[i + 1].up);
    check(`a free stroke is one item, ${n}`, items.length, Math.ceil(texts.length / 255));
    check(`its ends are met, ${n}`, missed(ends, items.flatMap((item) => item.points), 2.5 * 2 ** scale, false), []);
  }
}

/** A stroke in pieces, each sent when its text is full, is the stroke written at once. */
function testPieces() {
  const look = { kind: 's', colour: 1, width: 2, scale: 1 }, points = Array.from({ length: 90 }, (_, i) => ({ x: 4000 + 40 * i, y: 9000 + Math.round(300 * Math.sin(i / 5)), ...(i === 40 ? { up: true } : {}) }));
  const whole = writeStroke(look, points).map(({ text }) => text), pieces = [];
  let left = points, goesOn = false;
  while (left.length) {
    const [first, ...more] = writeStroke(look, left, goesOn);
    pieces.push(first.text);
    left = more.length ? [first.end, ...left.slice(first.upTo + 1)] : [];
    goesOn = true;
  }
  check('in pieces as at once', itemsOf(drawings(pieces))[0].points, itemsOf(drawings(whole))[0].points);
  check('a text after a lift begins where the pen is put down', [writeStroke(look, [{ x: 9, y: 9 }, { x: 50, y: 50, up: true }, { x: 60, y: 50 }], true).map(({ text }) => readInk(text).points)],
    [[[{ x: 50, y: 50 }, { x: 60, y: 50 }]]]);
  const [{ upTo, part }] = writeStroke({ ...look, scale: 0 }, [{ x: 0, y: 0 }, { x: 60000, y: 7001 }]);
  check('a way that fills a text is written in part', [upTo, part > 0 && part < 1], [0, true]);
}

function testShapes() {
  const look = { colour: 3, width: 2 }, at = [{ x: 640, y: 1200 }, { x: 1920, y: 1800 }], letters = 'Größe '.repeat(40);
  const note = itemsOf(drawings(writeShape('n', look, 1, at, letters)));
  check('a note of many letters', note.map(({ kind, letters: all, points }) => [kind, all, points]), [['n', letters, at]]);
  check('words of many letters', itemsOf(drawings(writeWords(look, 2, at[0], letters))).map((item) => [item.letters, item.flag]), [[letters, 2]]);
  check('a text is filled to its end', [writeWords(look, 0, at[0], 'x'.repeat(54)), writeWords(look, 0, at[0], 'x'.repeat(55))].map((texts) => texts.map(({ length }) => length)), [[64], [64, 11]]);
  const steps = (many) => writeStroke({ ...look, kind: 's', scale: 0 }, Array.from({ length: many + 1 }, (_, i) => ({ x: 9 * i, y: i % 2 }))).map(({ text }) => text.length);
  check('and so by steps', [steps(27), steps(28)], [[64], [64, 12]]);
  check('no words', writeWords(look, 0, at[0], ''), []);
  check('no link', [writeLink(look, at[0], 'javascript:alert(1)'), writeLink(look, at[0], `https://a/${'b'.repeat(50)}`)], [null, null]);
  check('a corner off the page is put on it', readInk(writeShape('l', look, 0, [{ x: -5, y: 3.5 }, { x: 1e9, y: 1e9 }])[0]).points, [{ x: 0, y: 4 }, { x: PAGE_WIDE - 1, y: PAGE_HIGH - 1 }]);
}

function testMoves({ reads }) {
  for (const { what, text } of reads) {
    const ink = readInk(text), [dx, dy] = keptInks([ink], -300, 777);
    check(`moved: ${what}`, readInk(movedInk(text, dx, dy)).points, ink.points.map((point) => ({ ...point, x: point.x + dx, y: point.y + dy })));
    check(`and back: ${what}`, movedInk(movedInk(text, dx, dy), -dx, -dy), text);
  }
  check('not off the page', [movedInk('~s$1!hV#HJ', -6401, 0), movedInk('~s$1!hV#HJ', 0, 479520), movedInk('no ink', 1, 1)], [null, null, null]);
  check('as far as all stay on the page', keptInks([readInk('~s$1!hV#HJ'), readInk('~hC2!!!!!!sOsP')], -50, 1e6), [0, 479519]);
  check('places of inks', [0, 62, 63, 6047, 6048].map((n) => placed('', n)).map(({ x, y }) => [x, y]), [[0, 4000], [3968, 4000], [0, 4001], [3968, 4095], [0, 4000]]);
  const [first, joint] = [placed('', 62, true, true), placed('', 1, false, true)];
  check('of one that is joined to the one before', [first.x, joint.x, isJoined(first), isAgain(first), isJoined(joint), isAgain(joint), isJoined(placed('', 1, true)), isJoined({ ...joint, x: 70 })], [3971, 66, true, true, true, false, false, false]);
  check('and no more', [joined(joint, false).x, joined(joint, true).x, joined(placed('', 1), true).x, joined({ ...joint, y: 9 }, false).x], [64, 66, 66, 66]);
  check('of one that stands for others', [placed('', 62, true).x, isAgain(placed('', 62, true)), isAgain(placed('', 62)), isAgain({ ...placed('', 1, true), y: 3999 })], [3969, true, false, false]);
  const look = { colour: 1, width: 4, size: 5, font: 2, isDashed: true, fill: 2 }, anew = (text) => (({ kind, colour, width, flag, goesOn }) => [kind, colour, width, flag, goesOn].join(' '))(readInk(restyled(text, look)));
  check('in another look, what each kind has of it', ['~sHb!->!XBYYYE', '~l11!!!!!!!!!!!!', '~r11!!!!!!!!!!!!', '~n11!!!!!!!!!!!!', "~t'2@|E](YE = mc~!T", '~hC2!!!!!!sOsP'].map(anew),
    ['s 1 4 1 true', 'l 1 4 5 false', 'r 1 4 6 false', 'n 1 6 1 false', 't 1 5 2 false', 'h 1 6 2 false']);
  check('in another colour', [recoloured('~s-1!hV#HJTJkis,r,', 6), recoloured('plain', 6)], ['~sZ1!hV#HJTJkis,r,', null]);
}

// ---- letters in a text

function testText() {
  const board = (...drawops) => ({ page: '1/1', drawops, hidden: [], rows: ['', drawops.length > 1 ? ' cells' : ''] }), look = { colour: 0, width: 2 };
  const words = (source, x, y, letters) => drawings(writeWords(look, 0, { x, y }, letters), source), plain = { op: 'text', x: 1, y: 1, text: 'cells', source: 9, seq: 1, time: '1' };
  const ink = [...words(1, 640, 9000, 'two\nlines'), ...words(2, 9000, 100, '\u03c0'), ...words(3, 640, 100, 'a long text of letters '.repeat(5)), ...drawings(['~s$1!hV#HJ'], 4)];
  check('the letters of ink below the rows', textOf(board(plain, ...ink)), `\n cells\n\n${'a long text of letters '.repeat(5)}\n\u03c0\ntwo\nlines\n`);
  check('letters alone', textOf(board(...words(1, 0, 0, 'a'))), 'a\n');
  check('ink without letters', textOf(board(...drawings(['~s$1!hV#HJ']))), '\n');
  check('a plain text in a row of ink', textOf(board({ ...plain, y: 4000 })), 'cells\n'.padStart(7));
}

// ---- what it costs

/** The lines of letters, each measured as a whole, where a letter is so wide. */
const brokenByLines = (letters, wide, each) => letters.split('\n').flatMap((row) => {
  const lines = [''];
  for (const word of row.split(/(?<= )/)) {
    if (lines.at(-1) && (lines.at(-1) + word.trimEnd()).length * each > wide) lines.push(word);
    else lines.push(lines.pop() + word);
  }
  return lines;
});

function testBroken() {
  const chance = chanceOf(3);
  let measured = 0;
  const measure = (line) => { measured += line.length; return 10 * line.length; };
  for (let n = 0; n < 300; n += 1) {
    const letters = Array.from({ length: chance(80) }, () => '  ab\n'[chance(5)]).join(''), wide = 10 * chance(30);
    check(`lines of ${JSON.stringify(letters)}, ${wide} wide`, broken(letters, wide, 0, 0, measure), brokenByLines(letters, wide, 10));
  }
  for (const [what, letters] of [['spaces', ' '.repeat(13_800)], ['short words', 'a b '.repeat(3_450)], ['lines', 'a\n'.repeat(6_900)], ['one word', 'a'.repeat(13_800)]]) {
    measured = 0;
    const lines = broken(letters, 4_000, 0, 0, measure);
    check(`of ${what} each word is measured once`, [measured <= letters.length + 1, lines.length <= 402], [true, true]);
  }
}

function testWork() {
  const shape = (kind, flag, to, width = 0) => itemsOf(drawings(writeShape(kind, { colour: 1, width }, flag, [{ x: 0, y: 0 }, to])))[0], small = { x: 14_000, y: 14_000 };
  check('dashes of shapes and lines up to a length', ['o', 'r', 'd', 'l'].map((kind) => [small, { x: 20_000, y: 100 }, { x: 60_000, y: 100 }].map((to) => dashesOf(shape(kind, 4, to)).length)),
    [...Array(3).fill([2, 0, 0]), [2, 2, 0]]);
  check('dashes and insides count', [['o', 4], ['l', 4], ['o', 0], ['l', 0]].map(([kind, flag]) => Math.round(workOf(shape(kind, flag, small)))), [419, 144, 17, 2]);
  const many = Array(500).fill(shape('o', 4, small)), dots = itemsOf(drawings(Array(500).fill('~s]1!#*!#*')));
  check('what is painted in a frame is bounded', [withinWork(many, WORK).length, withinWork(dots, WORK).length, withinWork(dots, 100).length, withinWork([], WORK).length], [8, 500, 100, 0]);
  const dotted = itemsOf([plainLine(1, 1, 1, 0, 4_095, '.')])[0];
  check('dots of plain lines count', Math.round(workOf(dotted)), Math.round(4_095 * 64 / 41 / 4) + 2);
  check('of each pointer the last first', inTurn([[1, 2, 3], [], [4], [5, 6]]), [6, 4, 3, 5, 1, 2]);
}

// ---- pictures

function testSvg() {
  const svg = (...texts) => svgOfInk(itemsOf(drawings(texts)), { colourOf: ({ colour }) => `c${colour}`, shades: { colours: { paper: 'white', ink: 'black' } } }, 'a <page>');
  const filled = (text) => [...svg(text).matchAll(/<path d="([^"]*)" fill="c0"/g)].map(([, way]) => way).join();
  check('a stroke with pressure has its widths, 8.8, 22 and 35.2, and round ends', filled('~v%0!({!/&!dOOdO}'),
    'M640 1195.6L660 1189L680 1182.4L680 1217.6L660 1211L640 1204.4ZM635.6 1200a4.4 4.4 0 1 1 8.8 0a4.4 4.4 0 1 1 -8.8 0ZM662.4 1200a17.6 17.6 0 1 1 35.2 0a17.6 17.6 0 1 1 -35.2 0Z');
  check('a dot with pressure', filled('~v%0!({!/&!'), 'M635.6 1200a4.4 4.4 0 1 1 8.8 0a4.4 4.4 0 1 1 -8.8 0Z');
  check('strokes, a highlighter below them', [...svg('~s]1!#*!#*YO~T8OaOd', '~hC2!!!!!!sOsP').matchAll(/<path d="(\w)[^"]*" stroke="(\w+)" stroke-width="([\d.]+)"/g)].map((found) => found.slice(1)),
    [['M', 'c3', '192'], ['M', 'c6', '34']]);
  check('a path has a part for each lift', svg('~s]1!#*!#*YO~T8OaOd').match(/d="([^"]*)"/)[1], 'M100 100C106.7 100 113.3 100 120 100M900 40C900 53.3 900 66.7 900 80');
  check('letters that would be no XML', escaped('\uffff<\ufffe&'), '\ufffd&#60;\ufffd&#38;');
}

// ---- items

const plainLine = (source, seq, time, x0, x1, glyph = '*') => ({ op: 'line', x0, y0: 0, x1, y1: 0, glyph, source, seq, time: String(time) });
const kindsOf = (items) => items.map(({ kind, flag, drawings: of }) => `${kind} ${of.map(({ seq }) => seq).join('+')}${flag ? ' head' : ''}`);

function testLines() {
  const at = (drawops) => kindsOf(itemsOf(drawops)), second = 1_000_000;
  check('lines end to end', at([plainLine(1, 1, 0, 0, 4), plainLine(1, 2, second / 2, 4, 9)]), ['line 1+2']);
  check('too late', at([plainLine(1, 1, 0, 0, 4), plainLine(1, 2, second / 2 + 1, 4, 9)]), ['line 1', 'line 2']);
  check('not end to end, another glyph, another number', [at([plainLine(1, 1, 0, 0, 4), plainLine(1, 2, 1, 5, 9)]), at([plainLine(1, 1, 0, 0, 4), plainLine(1, 2, 1, 4, 9, '+')]),
    at([plainLine(1, 1, 0, 0, 4), plainLine(1, 3, 1, 4, 9)])], [['line 1', 'line 2'], ['line 1', 'line 2'], ['line 1', 'line 3']]);
  check('a head, and nothing after it', at([plainLine(1, 1, 0, 0, 4), plainLine(1, 2, 1, 4, 4, '>'), plainLine(1, 3, 2, 4, 9, '>')]), ['line 1+2 head', 'line 3']);
  check('a head of one line only', at([plainLine(1, 1, 0, 0, 4), plainLine(1, 2, 1, 4, 9), plainLine(1, 3, 2, 9, 9, '>')]), ['line 1+2', 'line 3']);
  check('the points of a stroke of cells', itemsOf([plainLine(1, 1, 0, 0, 4), plainLine(1, 2, 1, 4, 9)])[0].points, [{ x: 32, y: 60 }, { x: 288, y: 60 }, { x: 608, y: 60 }]);
  const plain = [{ ...plainLine(1, 1, 1, 0, 4, '#'), op: 'frame', y1: 2 }, { op: 'text', x: 2, y: 3, text: 'ab', source: 2, seq: 1, time: '2' }, plainLine(3, 1, 3, 0, 4, '#')];
  check('plain drawings', itemsOf(plain).map(({ kind, colour, width, flag, points, letters }) => [kind, colour, width, flag, points, letters]), [
    ['frame', 9, 5, 0, [{ x: 32, y: 60 }, { x: 288, y: 300 }], ''], ['text', 9, 2, 0, [{ x: 128, y: 360 }], 'ab'], ['line', 9, 5, 0, [{ x: 32, y: 60 }, { x: 288, y: 60 }], '']]);
  const many = Array.from({ length: 600 }, (_, i) => plainLine(1, 1 + i, i, i, i + 1));
  check('an item has at most 255, and ends at a number', itemsOf(many).map(({ drawings: of }) => of.length), [255, 128, 128, 89]);
  check('times of 64 bits', at([plainLine(1, 1, '18446744073709551615', 0, 4), plainLine(1, 2, '18446744073709051615', 4, 9), plainLine(2, 1, '9', 0, 4)]), ['line 1', 'line 1+2']);
}

/** Some drawings of a source that belong together in all ways: strokes, notes with letters, lines with heads. */
function crowdOf(chance) {
  const stroke = writeStroke({ kind: 's', colour: 1, width: 2, scale: 1 }, Array.from({ length: 120 }, (_, i) => ({ x: 4000 + 30 * i, y: 9000 + 50 * (i % 2) }))).map(({ text }) => text);
  const note = writeShape('n', { colour: 1, width: 2 }, 1, [{ x: 640, y: 1200 }, { x: 1920, y: 1800 }], 'a note of some letters '.repeat(9));
  return [1, 2, 3].flatMap((source) => {
    const made = [];
    while (made.length < 40) {
      const seq = made.length + 1, kind = chance(4);
      if (kind === 0) made.push(...drawings(stroke, source, seq));
      else if (kind === 1) made.push(...drawings(note, source, seq));
      else if (kind === 2) made.push(...Array.from({ length: 1 + chance(5) }, (_, i) => plainLine(source, seq + i, 1000 * seq, i, i + 1)));
      else made.push(plainLine(source, seq, 1, 0, 4), plainLine(source, seq + 1, 2, 4, 4, '>'), plainLine(source, seq + 2, 3, 4, 8, '>'));
    }
    return made.map((drawing) => ({ ...drawing, time: String(1 + chance(300)) }));
  });
}

const whole = (items) => items.map((item) => ({ ...item, drawings: item.drawings.map(({ source, seq }) => [source, seq]) }));

/** Drawings come, are hidden and are restored in any order: the items are those of what is shown, and what did not change is the same. */
function testOrders() {
  const chance = chanceOf(11);
  for (let round = 0; round < 60; round += 1) {
    const all = crowdOf(chance), items = new Items(), shown = new Set();
    let isSame = true;
    for (let step = 0; step < 80; step += 1) {
      const before = items.list, moved = Array.from({ length: 1 + chance(8) }, () => all[chance(all.length)]).filter((it, i, list) => list.indexOf(it) === i);
      const gone = moved.filter((drawing) => shown.has(drawing)), come = moved.filter((drawing) => !shown.has(drawing));
      gone.forEach((drawing) => shown.delete(drawing));
      come.forEach((drawing) => shown.add(drawing));
      const changed = items.change(gone, come), left = before.filter((item) => !changed.gone.includes(item));
      isSame &&= left.length + changed.come.length === items.list.length && [...left, ...changed.come].every((item) => items.list.includes(item));
    }
    check('what did not change is the same object', isSame, true);
    check('items after changes are those of what is shown', whole(items.list), whole(itemsOf([...shown])));
    check('the order of coming does not matter', whole(itemsOf([...shown].sort((a, b) => a.text < b.text ? -1 : 1))), whole(items.list));
    items.show([...all]);
    check('all shown at once', whole(items.list), whole(itemsOf(all)));
    check('nothing to change', items.show([...all]), { gone: [], come: [] });
  }
  const items = new Items(), [first, second] = [plainLine(1, 1, 1, 0, 4), plainLine(1, 2, 2, 100, 104)];
  items.show([first]);
  const [before] = items.list;
  items.show([first, second]);
  check('what comes after an item leaves it as it was', items.list[0] === before, true);
  items.change([], [{ ...second, x1: 105 }]);
  check('another drawing of the same name', items.list.map(({ points }) => points[1].x), [288, 6752]);
  check('an item by the name of a drawing', items.itemOf(1, 2) === items.list[1], true);
}

/** Ink that goes on and on: a delete of the first, and a page that comes in reverse order, make few items anew. */
function testCuts() {
  const long = (many, first = 1) => Array.from({ length: many }, (_, i) => ({ op: 'text', x: 0, y: FIRST_ROW, text: '~sHb!->!XBYYYE', source: 7, seq: first + i, time: String(first + i) }));
  const all = long(60_000), items = new Items(), inks = (list) => list.reduce((sum, { drawings: of }) => sum + of.length, 0);
  check('which numbers begin an item', [[130, 128], [129, 128], [256, 129], [600, 1]].map(([many, first]) => itemsOf(long(many, first)).map(({ drawings: of }) => of.length)),
    [[128, 2], [128, 1], [255, 1], [255, 128, 128, 89]]);
  items.show(all);
  for (const at of [0, 300, 59_999]) {
    const { gone, come } = items.change([all[at]], []);
    check(`a delete of number ${at + 1} changes few`, [inks(gone) < 400, inks(come) < 400], [true, true]);
  }
  const late = new Items();
  let made = 0;
  for (let end = all.length; end > 0; end -= 100) made += inks(late.change([], all.slice(Math.max(0, end - 100), end)).come);
  check('in reverse order each is put into an item a few times', [made < 6 * all.length, inks(late.list)], [true, all.length]);
}

/** Of four inks of one source the second and the third are joined to those before them. */
function testGroups() {
  const items = new Items(), all = [false, true, true, false].map((is, i) => ({ ...placed(`~l1${i}!({!/&!hV!<*`, i, true, is), source: 1, seq: 5 + i, time: String(9 - i) }));
  const numbers = (list) => list.map(({ drawings: [{ seq }] }) => seq), marks = (list) => items.inGroups(list).map(({ drawings: [{ seq, x }] }) => [seq, x % 64]);
  items.show(all);
  check('a group from any of its items', items.list.map((item) => numbers(items.groupOf(item))), [[8], [5, 6, 7], [5, 6, 7], [5, 6, 7]]);
  check('its items follow one another', marks(), [[8, 1], [5, 1], [6, 3], [7, 3]]);
  check('which of them follow none are joined to none', marks(items.list.filter((item) => item !== items.itemOf(1, 6))), [[8, 1], [5, 1], [7, 1]]);
  items.show(all.filter(({ seq }) => seq !== 6));
  check('without the middle one there are two', items.list.map((item) => numbers(items.groupOf(item))), [[8], [7], [5]]);
}

const [, , file, word] = process.argv, vectors = JSON.parse(readFileSync(file, 'utf8'));
if (word === 'read') {
  const { texts, boards } = JSON.parse(readFileSync(0, 'utf8'));
  process.stdout.write(JSON.stringify({ texts: texts.map((text) => toldInk(readInk(text))), boards: boards.map(toldItems) }));
} else {
  for (const test of [testVectors, testBack, testSigns, testLetters, testStrokes, testCurves, testHands, testFree, testPieces, testShapes, testText, testBroken, testWork, testSvg, testMoves, testLines, testOrders, testCuts, testGroups]) test(vectors);
  console.log(JSON.stringify({ checked, wrong }));
}
