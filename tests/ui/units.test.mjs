// The modules of the page that need no browser, with values from outside: `node --test tests/ui/units.test.mjs`.
import test from 'node:test';
import { boxAbout, cover, coverLine, kept, orderOf, shifted, spell, touches } from '../../live/ui/cells.js';
import { shapeOf, shapesOf } from '../../live/ui/clipboard.js';
import { DAY, FOR_MEMBERS, NIGHT, colourOf, coloursFor } from '../../live/ui/colours.js';
import { HttpMember } from '../../live/ui/connection.js';
import { htmlOf, svgOf, textOf } from '../../live/ui/exports.js';
import { clockOf, sceneAt } from '../../live/ui/film.js';
import { Grid } from '../../live/ui/grid.js';
import { ruled } from '../../live/ui/ground.js';
import { readInk } from '../../live/ui/ink.js';
import { itemAt, meets } from '../../live/ui/inkfind.js';
import { itemsOf } from '../../live/ui/inkitems.js';
import { momentsOf, rowsOf, shownAt } from '../../live/ui/history.js';
import { placed } from '../../live/ui/inkwriting.js';
import { Layout } from '../../live/ui/layout.js';
import { calledBy, isGone, leavesOf } from '../../live/ui/leaves.js';
import { NOTES, Notes, initialsOf, readNotes, spoken } from '../../live/ui/notes.js';
import { readBeside, viewLine } from '../../live/ui/points.js';
import { gripAt, gripsOf, stretchOf, stretched } from '../../live/ui/resizing.js';
import { Session } from '../../live/ui/session.js';
import { arrow, filled, plainOf, simplify, stroke, writing } from '../../live/ui/shapes.js';
import { linked, nameOfNext, plainly } from '../../live/ui/state.js';
import { inside } from '../../live/ui/tools.js';
import { HIDDEN, UNSEEN, lookOf, seen, toldApart } from '../../live/ui/unseen.js';
import { check } from '../check.mjs';

const line = (x0, y0, x1, y1, glyph = '*') => ({ op: 'line', x0, y0, x1, y1, glyph });
const text = (x, y, letters) => ({ op: 'text', x, y, text: letters });
const named = (shape, seq, source = 1) => ({ ...shape, source, seq, time: String(seq) });

function testCells() {
  const cells = [];
  coverLine(0, 0, 4, 2, (x, y) => cells.push(`${x},${y}`));
  check('the cells of a line', cells, ['0,0', '1,1', '2,1', '3,2', '4,2']);
  let sides = 0;
  cover({ ...line(0, 0, 3, 2), op: 'frame' }, () => { sides += 1; });
  check('the cells of a frame, its corners twice', sides, 14);
  check('a text covers its cells', [4, 5].map((x) => touches(text(3, 1, 'ab'), { x0: x, y0: 1, x1: x, y1: 1 })), [true, false]);
  check('words of a text', spell(text(1, 2, 'a "b" \\')), 'text 1 2 "a \\"b\\" \\\\"');
  check('words of a line', spell(line(1, 2, 3, 4, '#')), 'line 1 2 3 4 #');
  check('a box about two', boxAbout([line(5, 9, 2, 3), text(7, 1, 'abc')]), { x0: 2, y0: 1, x1: 9, y1: 9 });
  check('a shape elsewhere', shifted(line(1, 2, 3, 4), 10, -2), line(11, 0, 13, 2));
  check('as far as the page goes', [kept([line(2, 3, 9, 9)], -5, 1), kept([line(2, 3, 4090, 9)], 50, 0)], [[-2, 1], [5, 0]]);
}

function testShapes() {
  check('an arrow to the right', arrow({ x: 1, y: 1 }, { x: 9, y: 2 }, '-'), [line(1, 1, 9, 2, '-'), line(9, 2, 9, 2, '>')]);
  check('arrows have heads', [[9, 1], [0, 1], [5, 9], [5, 0]].map(([x, y]) => arrow({ x: 5, y: 1 }, { x, y }, '-')[1].glyph).join(''), '><v^');
  check('a flat rectangle by its rows', filled({ x: 5, y: 2 }, { x: 1, y: 1 }, '#'), [line(1, 1, 5, 1, '#'), line(1, 2, 5, 2, '#')]);
  check('a tall one by its columns', filled({ x: 1, y: 1 }, { x: 2, y: 9 }, '#').length, 2);
  const wave = Array.from({ length: 400 }, (_, i) => ({ x: i, y: Math.round(20 + 15 * Math.sin(i / 9)) }));
  check('a stroke of a second has ten drawops at most', stroke(wave, 1000, '*').length, 10);
  check('one of three seconds thirty', stroke(wave, 3000, '*').length, 30);
  check('a straight one has one', stroke(Array.from({ length: 50 }, (_, i) => ({ x: 2 * i, y: i })), 900, '*'), [line(0, 0, 98, 49)]);
  check('a dot is a line of one cell', stroke([{ x: 4, y: 4 }], 10, '*'), [line(4, 4, 4, 4)]);
  const corners = simplify(wave, 12);
  check('a stroke keeps its ends', [corners[0], corners.at(-1), corners.length], [wave[0], wave.at(-1), 12]);
}

function testTexts() {
  check('many lines', writing('one\n\n  two ', { x: 5, y: 5 }), [text(5, 5, 'one'), text(7, 7, 'two')]);
  check('a long line in pieces', writing('x'.repeat(130), { x: 0, y: 0 }).map(({ x, text: piece }) => [x, piece.length]), [[0, 64], [64, 64], [128, 2]]);
  check('no further than the page', writing('ab\ncd', { x: 4094, y: 4095 }), [text(4094, 4095, 'ab')]);
  check('letters that there are not', plainOf('na\u00efve \u201cCaf\u00e9\u201d \u2192 \u6f22'), { plain: 'naive "Cafe" ? ?', lost: ['\u00ef', '\u201c', '\u00e9', '\u201d', '\u2192', '\u6f22'] });
  check('plain text is as it was', plainOf('a\tb\r\nc'), { plain: 'a    b\nc', lost: [] });
}

function testWords() {
  const shapes = [line(0, 0, 4, 4, '"'), { ...line(1, 2, 3, 4), op: 'frame' }, text(9, 9, 'say "hi" \\'), text(0, 0, ' ')];
  check('words are read as they were written', shapes.map(spell).map(shapeOf), shapes);
  const wrong = ['line 0 0 4 4', 'line 0 0 4 4096 *', 'line 0 0 4 4 **', 'line 0 0 -1 4 *', 'line 0 0 04 4 *', 'text 1 1 ""', 'text 1 1 "a', 'delete 1 1',
    `text 1 1 "${'x'.repeat(65)}"`, 'text 1 1 "\u00e9"', 'frame 0 0 4 4 \u00e9', 'line 0 0 4 4  '];
  check('no words of a drawing', wrong.map(shapeOf), wrong.map(() => null));
  check('a text that is no words is written', shapesOf('line of text\nline 0 0 1 1 *', { x: 1, y: 1 }).shapes.map(({ op }) => op), ['text', 'text']);
  check('what lies in a rectangle', inside([line(1, 1, 4, 4), line(0, 0, 9, 9)], { x: 5, y: 5 }, { x: 1, y: 0 }).length, 1);
}

function contrast(front, ground) {
  const light = (colour) => [1, 3, 5].map((i) => parseInt(colour.slice(i, i + 2), 16) / 255)
    .map((c) => (c <= 0.04045 ? c / 12.92 : ((c + 0.055) / 1.055) ** 2.4)).reduce((sum, c, i) => sum + c * [0.2126, 0.7152, 0.0722][i], 0);
  const [low, high] = [light(front), light(ground)].sort((a, b) => a - b);
  return (high + 0.05) / (low + 0.05);
}

function testColours() {
  const numbers = [...Array(400).keys(), 2 ** 31, 2 ** 32 - 1], grounds = [[false, '#ffffff'], [false, '#e3ebfc'], [true, '#14171d'], [true, '#24324f']];
  check('each can be read', grounds.flatMap(([isNight, ground]) => numbers.filter((n) => contrast(colourOf(n, isNight), ground) < 4.5)), []);
  check('neighbours differ', new Set([...Array(32).keys()].map((n) => colourOf(n + 1, false))).size, 32);
}

/** How eyes see colours of a screen, as red, green and blue in linear light (Machado, Oliveira and Fernandes 2009): all of them, and those without red,
 * green or blue. */
const EYES = [[[1, 0, 0], [0, 1, 0], [0, 0, 1]], [[0.152286, 1.052583, -0.204868], [0.114503, 0.786281, 0.099216], [-0.003882, -0.048116, 1.051998]],
  [[0.367322, 0.860646, -0.227968], [0.280085, 0.672501, 0.047413], [-0.01182, 0.04294, 0.968881]], [[1.255528, -0.076749, -0.178779], [-0.078411, 0.930809, 0.147602], [0.004733, 0.691367, 0.3039]]];

/** How far two colours are apart in Oklab, of which 0.02 is just seen. */
function apart(one, other, eyes) {
  const linear = (c) => (c <= 0.04045 ? c / 12.92 : ((c + 0.055) / 1.055) ** 2.4), times = (rows, parts) => rows.map((row) => row.reduce((sum, part, i) => sum + part * parts[i], 0));
  const [a, b] = [one, other].map((colour) => {
    const cones = times([[0.4122214708, 0.5363325363, 0.0514459929], [0.2119034982, 0.6806995451, 0.1073969566], [0.0883024619, 0.2817188376, 0.6299787005]],
      times(eyes, [1, 3, 5].map((i) => linear(parseInt(colour.slice(i, i + 2), 16) / 255))));
    return times([[0.2104542553, 0.793617785, -0.0040720468], [1.9779984951, -2.428592205, 0.4505937099], [0.0259040371, 0.7827717662, -0.808675766]], cones.map((part) => Math.cbrt(Math.max(0, part))));
  });
  return Math.hypot(...a.map((part, i) => part - b[i]));
}

function testPeoplesColours() {
  const four = FOR_MEMBERS.slice(0, 4), pairs = four.flatMap((a, i) => four.slice(0, i).map((b) => [a, b]));
  check('four people have four colours, for all eyes, by day and by night', [DAY, NIGHT].flatMap((page) => EYES.flatMap((eyes) => pairs.filter(([a, b]) => apart(page[a], page[b], eyes) < 0.07))), []);
  check('who chose none has one that nobody has', [...coloursFor([40, 7, 22, 9], new Map([[22, 7], [99, 3]]))], [[7, 3], [9, 5], [40, 1]]);
  check('as far as there are', [...coloursFor([...Array(12).keys()], new Map())].length, 8);
}

/** What became of a page whose drawings are others now. */
const taken = (before, after) => ({ isTurned: false, gone: before.filter((drawing) => !after.includes(drawing)), added: after.filter((drawing) => !before.includes(drawing)) });

/** A page with these drawings, and a layout of it alone. */
const boardOf = (drawops, rows = [], page = '1/1') => ({ page, drawops, hidden: [], rows });
const laidAnew = (drawops) => {
  const fresh = new Layout();
  fresh.take(boardOf(drawops), { isTurned: true, gone: [], added: drawops });
  return fresh;
};

function testLayout() {
  const layout = new Layout(), chance = ((seed) => (most) => { seed = (seed * 1103515245 + 12345) % 2147483648; return seed % most; })(7);
  let [drawn, differs] = [[], 0];
  layout.take(boardOf([]), { isTurned: true, gone: [], added: [] });
  for (let i = 1; i <= 120; i += 1) {
    const kind = chance(4), before = drawn, drawing = named(line(chance(150), chance(90), chance(150), chance(90), '*#+-'[chance(4)]), i);
    drawn = [...before];
    if (kind === 0 && drawn.length) drawn.splice(chance(drawn.length), 1);
    else drawn.splice(kind === 1 ? chance(drawn.length + 1) : drawn.length, 0, drawing);
    layout.take(boardOf(drawn), taken(before, drawn));
    const anew = laidAnew(drawn);
    for (let at = 0; at < 160 * 100; at += 1) {
      const cell = { x: at % 160, y: Math.floor(at / 160) };
      if (layout.markAt(cell.x, cell.y) !== anew.markAt(cell.x, cell.y) || layout.drawingAt(cell) !== anew.drawingAt(cell)) differs += 1;
    }
  }
  check('what is kept by tiles is what is laid out anew', differs, 0);
  const before = layout.tileAt(0, 0).version, more = [...drawn, named(line(3000, 3000, 3001, 3001), 999)];
  layout.take(boardOf(more), taken(drawn, more));
  check('a drawing far away leaves a tile as it was', layout.tileAt(0, 0).version, before);
  layout.take(boardOf(more, ['@@']), taken(more, more));
  check('the host paints where it can', [layout.glyphAt(1, 0), layout.glyphAt(2, 0), layout.glyphAt(3000, 3000)], ['@', ' ', '*']);
  check('where the host painted anew the picture is another', layout.tileAt(0, 0).version === before, false);
  layout.take(boardOf([], [], '1/2'), { isTurned: true, gone: [], added: [] });
  check('another page has other cells', [layout.tiles.size, layout.drawingAt({ x: 3000, y: 3000 }) ?? null], [0, null]);
}

/** Of frames as wide as a page what is looked at is laid out, a slice at a time. */
function testFlood() {
  const frames = Array.from({ length: 1500 }, (_, i) => named({ ...line(0, 0, 4095, 4095), op: 'frame' }, i + 1)), layout = laidAnew(frames);
  check('a frame as wide as the page', [layout.markAt(0, 2000), layout.markAt(2000, 4095), layout.markAt(2000, 2000)], ['*', '*', ' ']);
  const older = named({ ...line(0, 0, 4095, 4095, '#'), op: 'frame' }, 0), all = [older, ...frames];
  layout.take(boardOf(all), taken(frames, all));
  const tile = layout.tileAt(0, 0, 0);
  check('a tile is laid out in slices', [tile.isLaid, tile.left > 1400, layout.tileAt(0, 0).isLaid, layout.markAt(0, 0)], [false, true, true, '*']);
  check('part of a line in a box', (() => { const seen = []; coverLine(0, 0, 4095, 4095, (x, y) => seen.push(x - y), { x0: 64, y0: 64, x1: 95, y1: 95 }); return seen.length; })(), 32);
}

function testNotes() {
  const at = (seq, letters, source = 1) => named(text(0, seq, letters), seq, source);
  const told = readNotes([at(1, 'name Ada'), at(2, 'name Grace Hopper', 2), at(3, 'title 1/1 The roof'), at(4, 'say hello'), at(5, 'name Ada L', 1),
    at(6, 'title x none'), at(7, 'said nothing'), named(line(0, 0, 1, 1), 8), at(9, 'colour 3'), at(10, 'colour 7', 2), at(11, 'colour 9', 2), at(12, 'colour 4'),
    at(13, 'colour', 2), at(14, 'next class-2', 1), at(15, 'next a b'), at(16, 'next class-3', 2)]);
  check('names', [...told.names], [[1, 'Ada L'], [2, 'Grace Hopper']]);
  check('titles', [...told.titles], [['1/1', 'The roof']]);
  check('what was said', told.said.map(({ source, text: words }) => [source, words]), [[1, 'hello']]);
  check('the first free row', told.row, 17);
  check('colours: the last counts, and an empty one takes it back', [...told.colours], [[1, 4]]);
  const papers = readNotes([at(1, 'paper 1/1 squares'), at(2, 'paper 1/1 lines', 2), at(3, 'paper 1/2 wood'), at(4, 'paper 1/3'), at(5, 'paper~ 1/3 lines')]).papers;
  check('paper: the last word counts', [...papers], [['1/1', 'lines']]);
  check('squares in a box', ruled('squares', { x0: -1, y0: 100, x1: 200, y1: 400 }), 'M0 100V400M192 100V400M-1 192H200M-1 384H200');
  check('lines, dots and none', ['lines', 'dots', 'none'].map((paper) => ruled(paper, { x0: 5, y0: 10, x1: 300, y1: 800 })), ['M5 384H300M5 768H300', '', '']);
  check('where the board goes on, and who said so', told.next, { session: 'class-3', source: 2 });
  check('initials', [initialsOf('Ada Lovelace', 1), initialsOf('grace', 2), initialsOf(undefined, 1234567), initialsOf('!', 9)], ['AL', 'GR', '67', '9']);
  check('initials of all languages', [initialsOf('\u00e9mile \u00d8', 1), initialsOf('\u5c71\u7530 \u82b1\u5b50', 2), initialsOf('\ud83d\ude00\ud801\udc00\ud801\udc01', 3)], ['\u00c9\u00d8', '\u5c71\u82b1', '\ud801\udc00\ud801\udc01']);
}

/** Names as people see them. */
function testSeen() {
  const nothing = UNSEEN.flatMap(([first, last]) => [first, last]).map((code) => String.fromCodePoint(code)), all = [...Array(0x110000).keys()].map((code) => String.fromCodePoint(code));
  check('all that Unicode has as ignorable shows nothing', all.filter((letter) => /\p{Default_Ignorable_Code_Point}/u.test(letter) && !HIDDEN.test(letter)), []);
  check('and letters, marks, digits and signs that show something do', ['a', '~', ' ', '\u0301', '\u05d0', '\u0e34', '\u3042', '\uac00', '\u{1f600}', '\u{1d158}'].filter((letter) => HIDDEN.test(letter)), []);
  check('what shows nothing goes', [...nothing, '\u200c', '\u200d', '\u202e', '\ufe0e'].filter((letter) => seen(`A${letter} da${letter}`) !== 'A da'), []);
  check('a name of such letters alone is none', [...nothing, ' \u200d ', '\u3164\u2800', '\ufe0f'].map(seen).filter(Boolean), []);
  check('what changes the letters about it stays', ['\u0645\u06cc\u200c\u062e\u0648\u0627\u0647\u0645', '\u0915\u094d\u200d\u0937', '\u{1f469}\u200d\u{1f680}', '\u2764\ufe0f', '\u2764\ufe0f\u200d\u{1f525}'].map(seen),
    ['\u0645\u06cc\u200c\u062e\u0648\u0627\u0647\u0645', '\u0915\u094d\u200d\u0937', '\u{1f469}\u200d\u{1f680}', '\u2764\ufe0f', '\u2764\ufe0f\u200d\u{1f525}']);
  check('what looks the same', ['Ada', 'A\u200dda', '\u0410d\u0430', 'Ada ', '\uff21da'].map(lookOf), Array(5).fill('Ada'));
  check('and what does not', ['Ada', 'ADA', 'Adam', 'A da', '\u00c4da'].map(lookOf).filter((look, i, looks) => looks.indexOf(look) !== i), []);
  check('equal names get numbers', [...toldApart(new Map([[1764, 'Ada'], [2, 'Bob'], [99, 'A\u200dda'], [3764, '\u0410da'], [5, '']]))], [[1764, 'Ada (1764)'], [2, 'Bob'], [99, 'A\u200dda (99)'], [3764, '\u0410da (3764)'], [5, '']]);
  check('of two as few digits as tell them apart', [...toldApart(new Map([[1764, 'Ada'], [1899, 'Ada']])).values()], ['Ada (64)', 'Ada (99)']);
  const names = readNotes(spoken('name', '', '\u3164A\u2800d\ufe00a').map((letters, i) => named(text(0, i, letters), i + 1))).names;
  check('as a member says it', [...names.values()], ['Ada']);
}

/** Of the reserved page what is new is read, once a second at most, also if it changes all the time and an answer is lost. */
async function testNews() {
  const { setTimeout } = globalThis, /** @type {any[]} */ waits = [], /** @type {any[]} */ asked = [], /** @type {any[]} */ answers = [];
  const session = new Session(/** @type {any} */ ({ news: (/** @type {string} */ page, /** @type {string} */ since) => {
    asked.push([page, since]);
    return new Promise((answer) => { answers.push(answer); });
  } })), notes = new Notes(session), at = (/** @type {number} */ seq, /** @type {string} */ letters) => named(text(0, seq, letters), seq);
  const look = (/** @type {number} */ drawn) => notes.look([{ page: NOTES, drawn, last: '1' }]), settle = async () => { for (let n = 0; n < 9; n += 1) await null; };
  const answer = async (/** @type {any} */ news) => { answers[answers.length - 1](news); await settle(); };
  globalThis.setTimeout = /** @type {any} */ ((/** @type {() => void} */ go, /** @type {number} */ pause) => waits.push([go, pause]));
  const second = async () => { waits[waits.length - 1][0](); await settle(); };
  try {
    look(0);
    for (let drawn = 1; drawn < 50; drawn += 1) look(drawn);
    check('of many changes one asks', asked, [[NOTES, '']]);
    await answer({ since: 'a-3', whole: true, names: [], added: [[0, at(1, 'name Ada')], [1, at(2, 'say one')], [2, at(3, 'title 1/1 Roof')]] });
    check('what was read is told', [[...notes.told.names], [...notes.told.titles], asked.length, waits.map(([, pause]) => pause)], [[[1, 'Ada']], [['1/1', 'Roof']], 1, [1_000]]);
    await second();
    check('a second later what is new since is read', asked[1], [NOTES, 'a-3']);
    await answer(null);
    await second();
    check('what got no answer is asked for again', asked[2], [NOTES, 'a-3']);
    look(60);
    await answer({ since: 'a-9', whole: false, names: [[1, 1], [1, 3]], added: [[1, at(3, 'title 1/1 Sun')], [2, at(4, 'say two')]] });
    check('what is taken off and put in', [[...notes.told.names], [...notes.told.titles], notes.told.said.map(({ text: said }) => said)], [[], [['1/1', 'Sun']], ['one', 'two']]);
    await second();
    await answer({ since: 'b-1', whole: true, names: [], added: [[0, at(9, 'name Eve')]] });
    check('of another host all of it', [[...notes.told.names], notes.told.said], [[[1, 'Eve']], []]);
    await second();
    check('if nothing is new, nothing is asked', [asked.length, answers.length], [4, 4]);
    look(61);
    await answer({ since: 'b-2', whole: false, names: [], added: [[1, at(10, 'name Evi')]] });
    notes.session.member.draw = async () => ({ ok: true });
    await notes.name('Eve');
    look(62);
    await settle();
    check('what we say ourselves is read at once', asked.length, 6);
  } finally {
    globalThis.setTimeout = setTimeout;
  }
}

/** Letters of all languages, in texts of which each reads by itself. */
function testLetters() {
  const at = (letters, seq) => named(text(0, seq, letters), seq), said = (texts) => readNotes(texts.map(at)).said.map(({ text: words }) => words);
  const long = 'Gr\u00f6\u00dfe \u2248 \u6f22 \ud83d\ude00 ~ "x" \\ '.repeat(6).trim(), pieces = spoken('say', '', long);
  check('what is ASCII stands as it is', spoken('say', '', 'a ~ "b"'), ['say a ~ "b"']);
  check('what is not is in signs', spoken('title', '1/1 ', 'J\u00fcrgen'), ['title~ 1/1 J~#Brgen']);
  check('a long one in pieces', [pieces.length > 2, pieces.every((each) => each.length <= 64 && each.startsWith('say~ ')), said(pieces)], [true, true, [long]]);
  check('a text that is not full ends what is said', said(['say one', 'say two']), ['one', 'two']);
  check('one that comes later begins another', readNotes([at(pieces[0], 0), { ...at('say x', 1), time: '9000000' }]).said.length, 2);
  check('what does not read says nothing', said(['say~ ~', 'say~ x~}', 'say ~', 'say~', 'say']), ['~']);
  check('names and titles', (({ names, titles }) => [...names.values(), ...titles.values()])(readNotes(['name~ J~#Brgen', 'title~ 1/1 ~#B', 'title~ x', 'name~ ~~'].map(at))), ['J\u00fcrgen', '\u00fc']);
  check('what is seen by nobody is left out', readNotes(spoken('name', '', 'a\u202eb\u200dc\u0085d').map(at)).names.get(1), 'ab\u200dcd');
  check('a colour has no letters', readNotes(['colour~ 3', 'next~ x'].map(at)), readNotes([at('x', 1)]));
}

/** The pages that are listed, in the order that all agree on. */
function testLeaves() {
  const pages = ['1/1', '7/1', '9/3', '8/1'].map((page, i) => ({ page, drawn: i === 3 ? 0 : 2, last: String(10 * i) })), all = [{ page: '0/0', drawn: 9 }, ...pages];
  const word = (seq, letters) => named(text(0, seq, letters), seq), ordered = (...words) => readNotes(words.map((letters, i) => word(i + 1, letters)));
  const listed = (inView, ...words) => leavesOf(all, ordered(...words), inView).map(({ page }) => page).join(' ');
  check('as they were begun, but for the reserved one', listed('1/1'), '1/1 7/1 9/3 8/1');
  check('one is put behind another, and another first', [listed('1/1', 'place 1/1 9/3'), listed('1/1', 'place 1/1 9/3', 'place 9/3 0/0')], ['7/1 9/3 1/1 8/1', '9/3 7/1 1/1 8/1']);
  check('what names no page, or itself, moves nothing', listed('1/1', 'place 1/1 5/5', 'place 5/5 1/1', 'place 1/1 1/1', 'place 1/1', 'place x 1/1'), '1/1 7/1 9/3 8/1');
  check('a deleted page is not listed unless it is in view', [listed('1/1', 'gone 7/1'), listed('7/1', 'gone 7/1'), listed('1/1', 'gone 7/1 x')], ['1/1 7/1 9/3 8/1', '1/1 7/1 9/3 8/1', '1/1 7/1 9/3 8/1']);
  const told = { places: [['9/3', '7/1'], ['1/1', '9/3']], gone: new Map([['7/1', [{ time: '10' }]], ['9/3', [{ time: '19' }]]]) };
  check('what was drawn after it was deleted is', leavesOf(pages, told, '8/1').map(({ page }) => page), ['9/3', '1/1', '8/1']);
  check('by the last time', [isGone(pages[1], told.gone), isGone(pages[2], told.gone), isGone(pages[0], told.gone)], [true, false, false]);
  check('pages by their places', ['1/1', '9/3', '8/1', '5/5'].map((page) => calledBy(pages, page)), ['Page 1', 'Page 3', 'New page', 'New page']);
  check('the first page of an empty board', calledBy([{ page: '1/1', drawn: 0 }], '1/1'), 'Page 1');
}

/** What was erased, a row for each step. */
function testErased() {
  const ink = (seq, source, isAgain = false) => ({ ...placed('~s$1!hV#HJ', seq, isAgain), source, seq, time: String(1e6 * seq) });
  const erased = (drawing, by, seq, at, before = null) => ({ ...drawing, erased: [by, seq, String(at), before] });
  const rows = (drawops, ...hidden) => rowsOf({ page: '1/1', drawops, hidden, rows: [] }).map(({ by, at, drawings }) => [by, at, drawings.map(({ seq }) => seq)]);
  const three = [1, 2, 3].map((seq) => erased(ink(seq, 7), 8, 10 + seq, 9e6 + seq * 1e5, seq === 1 ? null : 'delete'));
  check('what one erased at once is one row, by who erased', rows([], ...three), [[8, 9.1e6, [1, 2, 3]]]);
  check('one that was restored since is missing in it', rows([ink(2, 7)], three[0], three[2]), [[8, 9.1e6, [1, 3]]]);
  check('later it is another one, which comes first', rows([], three[0], erased(ink(4, 7), 8, 12, 11e6, 'delete')), [[8, 11e6, [4]], [8, 9.1e6, [1]]]);
  check('after something else it is another one', rows([], three[0], erased(ink(4, 7), 8, 13, 9.2e6, 'text')), [[8, 9.2e6, [4]], [8, 9.1e6, [1]]]);
  check('of two members two', rows([], three[0], erased(ink(4, 7), 9, 12, 9.1e6, 'delete')).length, 2);
  check('what was moved was not erased', rows([ink(5, 8, true)], erased(ink(1, 7), 8, 6, 6e6, 'text'), erased(ink(2, 7), 8, 7, 6e6, 'delete')), []);
  const moved = [erased(ink(1, 7), 8, 7, 6e6, 'text'), erased(ink(2, 7), 8, 8, 6.01e6, 'delete')], [first, second] = [5, 6].map((seq) => ink(seq, 8, true));
  check('what was moved and erased at once was', rows([second], ...moved, erased(first, 8, 9, 6.02e6, 'delete')), [[8, 6.02e6, [5]]]);
  check('all of it', rows([], ...moved, erased(first, 8, 9, 6.02e6, 'delete'), erased(second, 8, 10, 6.03e6, 'delete')), [[8, 6.02e6, [5, 6]]]);
  check('and another a moment later', rows([first, second], ...moved, erased(ink(3, 7), 8, 9, 6.4e6, 'delete')), [[8, 6.4e6, [3]]]);
  check('what it drew fewer for is not', rows([first, second], ...moved, erased(ink(3, 7), 8, 9, 6.02e6, 'delete')), []);
  check('nor is what an undo put back', rows([ink(1, 7)], erased(ink(5, 8, true), 8, 9, 9e6, 'restore')), []);
  check('what is left of an erased item was drawn new', rows([ink(5, 8)], erased(ink(1, 7), 8, 6, 6e6, 'text')), [[8, 6e6, [1]]]);
  const far = { ...line(2, 2, 6, 2), source: 8, seq: 5, time: '5' };
  check('a line of cells that was moved', [rows([far], erased({ ...line(1, 1, 5, 1), source: 7, seq: 1, time: '1' }, 8, 6, 6, 'line')), rows([far], erased({ ...line(1, 1, 6, 1), source: 7, seq: 1, time: '1' }, 8, 6, 6, 'line')).length], [[], 1]);
  const board = { page: '1/1', drawops: [ink(4, 7)], hidden: three, rows: [] };
  check('the page as it was', [0, 1.5, 5, 9.15, 9.5].map((at) => shownAt(board, at * 1e6).map(({ seq }) => seq).sort().join('')), ['', '1', '1234', '234', '4']);
  check('its moments, of a second one', momentsOf(board), [1e6, 2e6, 3e6, 4e6, 9.3e6]);
}

/** What the member says of itself, in words for everyone. */
function testState() {
  check('the connection', [['open', 3], ['lost', 0], ['lost', 1], ['lost', 12], ['gone', 2]].map(([link, many]) => linked(link, many)),
    ['', 'Offline: what you draw waits here', 'Offline: 1 drawing waits here', 'Offline: 12 drawings wait here', 'This board has another address now']);
  const health = (phrase, missing = 0, taken = 0, warnings = []) => plainly({ phrase, missing, taken, cells: 320, warnings, counts: {} }, true);
  check('in plain words', [health('whole'), health('caught up 3 s ago'), health('2 missing', 2), health('1 missing', 1)].map(({ text }) => text),
    ['Everything is here', 'Everything is here', 'Catching up: 2 drawings', 'Catching up: 1 drawing']);
  check('a full board', [health('whole', 0, 255), health('whole', 0, 256), health('1 missing', 1, 309), health('1 missing', 1, 310)].map(({ text }) => text),
    ['Everything is here', 'The board is almost full', 'Catching up: 1 drawing', 'The board is full']);
  check('by no words of a warning', health('whole', 0, 9, ['names: the board is full', 'the board becomes full: 8 of 10 cells']).text, 'Everything is here');
  check('before it may draw', plainly({ phrase: 'whole', missing: 0, taken: 0, cells: 1, warnings: [], counts: {} }, false).text, 'Looking who is here');
  check('what else is told is told', health('the broker is away'), { kind: 'missing', text: 'the broker is away' });
  check('the next board', nameOfNext(new Date(Date.UTC(2026, 4, 3)), () => 0.5), 'board-2026-05-03-5500');
}

/** A corner draws all that is selected as if it were on rubber; the opposite one stays. */
function testStretch() {
  const item = { kind: 'r', source: 1, drawings: [], colour: 3, width: 0, flag: 1, points: [{ x: 1006, y: 2006 }, { x: 1994, y: 2494 }], letters: 'ab' }, [, , grip] = gripsOf([item]);
  check('corners of the box about it', grip, { at: { x: 2000, y: 2500 }, still: { x: 1000, y: 2000 } });
  check('under the hand', [gripAt([item], { x: 2020, y: 2490 }, 6), gripAt([item], { x: 1500, y: 2250 }, 6), gripAt([], { x: 0, y: 0 }, 6)], [grip, undefined, undefined]);
  const wide = stretchOf(grip, [item], { x: 1000, y: 0 }, false), even = stretchOf(grip, [item], { x: 1000, y: 0 }, true);
  check('each point goes on', [wide.to({ x: 1000, y: 2000 }), wide.to({ x: 1994, y: 2494, pressure: 0.5 })], [{ x: 1000, y: 2000 }, { x: 2988, y: 2494, pressure: 0.5 }]);
  check('alike across and down', [even.to(grip.at), even.times], [{ x: 3000, y: 3000 }, 2]);
  check('never through the other corner', stretchOf(grip, [item], { x: -5000, y: 0 }, false).to(grip.at), { x: 1100, y: 2500 });
  const [drawn] = stretched([item], wide);
  check('as a text', (({ kind, colour, flag, points, letters }) => [kind, colour, flag, points, letters])(readInk(drawn.text)), ['r', 3, 1, [{ x: 1012, y: 2006 }, { x: 2988, y: 2494 }], 'ab']);
  const cells = { ...item, kind: 'line', drawings: [line(10, 10, 20, 12)] };
  check('a line of cells by cells', stretched([cells], { to: ({ x, y }) => ({ x: 2 * x, y }), times: 1 }), [line(21, 10, 41, 12)]);
}

/** The order of painting is the host's: by time, source and number. */
function testOrder() {
  const at = (time, source, seq) => ({ ...line(0, 0, 1, 1), time, source, seq });
  const order = [at('9', 5, 5), at('10', 1, 9), at('10', 2, 1), at('10', 2, 2), at('18446744073709551614', 1, 1), at('18446744073709551615', 1, 1)];
  check('the order of painting', [...order].reverse().sort(orderOf), order);
}

function testExports() {
  const board = { page: '1/1', drawops: [named({ ...line(1, 1, 4, 3, '#'), op: 'frame' }, 1), named(text(2, 2, '<&'), 2, 2)], hidden: [], rows: ['', ' ####', ' #<&#', ' ####'] };
  check('a page as text', textOf(board), '\n ####\n #<&#\n ####\n');
  const svg = svgOf(board, (source) => `#00000${source}`, '#fff', 'a "b"');
  check('as SVG', [svg.includes('>&#60;&#38;</text>'), svg.includes('<title>a &#34;b&#34;</title>'), svg.includes('fill="#000002"')], [true, true, true]);
  check('far from the corner', textOf({ ...board, rows: [], drawops: [named(text(3000, 3000, 'x'), 1)] }), 'x\n');
  check('an empty page', textOf({ ...board, rows: [], drawops: [] }), '\n');
  check('all pages', htmlOf([{ title: '<1>', svg: '<svg></svg>' }]).includes('<h2>&#60;1&#62;</h2>\n<svg></svg>'), true);
}

function testFilm() {
  const scenes = [[0, 1, 'line', false], [500, 2, 'text', false], [500, 1, 'line', true]];
  check('what is seen when', [sceneAt(scenes, 499).count, sceneAt(scenes, 500).scene, sceneAt([], 9).count], [1, scenes[2], 0]);
  check('times', [clockOf(0), clockOf(61_999), clockOf(3_600_000)], ['0:00', '1:01', '60:00']);
}

async function testSession() {
  const drawn = [], session = new Session({ draw: async (page, operation) => ({ ok: drawn.push([page, operation]) > 0, source: 1, seq: drawn.length }) });
  const show = (page) => session.take('board', { page, drawops: [], hidden: [], rows: [] }), early = ['line 0 0 1 1 *', 'line 0 0 2 2 *'].map((it) => session.send(it));
  await null;
  check('nothing is drawn before a page is shown', drawn, []);
  show('1/1');
  show('1/2');
  await Promise.all([...early, session.send('line 0 0 3 3 *')]);
  check('what is shown is known by name', [session.has('1 1'), session.nameOf(1234567), session.titleOf('1/2')], [false, 'Guest 67', 'Page 1']);
  check('then it is, where it was drawn', drawn.map(([page, operation]) => `${page} ${operation}`).sort(), ['1/1 line 0 0 1 1 *', '1/1 line 0 0 2 2 *', '1/2 line 0 0 3 3 *']);
}

function testBeside() {
  const lines = [viewLine({ x0: -12.4, y0: -0.5, x1: 6400, y1: 8000.6 }), 'call 1764486000', 'line 0 0 4 4 *'];
  check('what is in view', lines[0], 'view -12 0 6400 8001');
  check('what a member tells beside', readBeside(lines), { shapes: [line(0, 0, 4, 4)], view: { x0: -12, y0: 0, x1: 6400, y1: 8001 }, follows: null, call: 1764486000 });
  check('whom it follows', readBeside(['follow 7']), { shapes: [], view: null, follows: 7, call: null });
  check('what tells nothing', readBeside(['view 1 1 1 9', 'view 1 2 3', 'view 1 2 3 4 5', 'follow -1', 'follow 99999999999', 'call', 'view a b c d', 'viewing 1']), readBeside([]));
  check('who does not know it draws none of it', lines.slice(0, 2).map(shapeOf), [null, null]);
}

/** A change is put into the page: some drawings go, others come to their places, and rows are others. */
function testChanges() {
  const session = new Session({}), many = Array.from({ length: 100 }, (_, i) => named(line(i, 0, i, 1), i + 1)), told = [];
  session.on('board', ({ drawops, hidden }, { isTurned, gone, added }) => told.push([isTurned, gone.length, added.length, drawops.length, hidden.length]));
  session.take('board', { page: '1/1', drawops: many.filter(({ seq }) => seq % 2), hidden: [], rows: ['a', 'b'] });
  session.take('change', { page: '1/1', names: [[1, 3]], added: [], hidden: [many[2]], rows: { 1: 'c' }, height: 3 });
  check('one that is hidden', [session.shown.has('1 3'), session.has('1 3'), session.board.drawops.length, session.board.rows], [false, true, 49, ['a', 'c', '']]);
  session.take('change', { page: '1/1', names: [[1, 3]], added: many.filter(({ seq }) => seq % 2 === 0 || seq === 3).map((drawing) => [drawing.seq - 1, drawing]), hidden: [], rows: {}, height: 1 });
  check('many that come between', session.board.drawops.map(({ seq }) => seq), many.map(({ seq }) => seq));
  session.take('change', { page: '1/1', names: [[1, 50]], added: [[49, many[49]]], hidden: [], rows: {}, height: 0 });
  check('one that is told again', session.board.drawops.map(({ seq }) => seq), many.map(({ seq }) => seq));
  session.take('board', { page: '1/1', drawops: many.slice(0, 99).map((drawing) => ({ ...drawing })), hidden: [], rows: [] });
  check('the same page anew keeps its drawings', session.board.drawops[0] === many[0], true);
  check('what became of it', told, [[true, 0, 50, 50, 0], [false, 1, 0, 49, 1], [false, 0, 51, 100, 0], [false, 1, 1, 100, 0], [false, 1, 0, 99, 0]]);
}

/** Numbers below a bound, the same in each run. */
const chanceOf = (seed) => (most) => {
  seed = (Math.imul(seed, 1664525) + 1013904223) >>> 0;
  return Math.floor((seed / 2 ** 32) * most);
};

/** Lines and frames of all sizes, some as large as the page, most of them small and near one another. */
function itemsAtRandom(many, chance) {
  return itemsOf(Array.from({ length: many }, (_, i) => {
    const far = 2 ** chance(12), [x, y] = [chance(chance(3) ? 400 : 4096), chance(chance(3) ? 400 : 4096)];
    const to = (at) => Math.min(4095, Math.max(0, at + chance(2 * far) - far));
    return named({ op: chance(2) ? 'line' : 'frame', x0: x, y0: y, x1: to(x), y1: to(y), glyph: '*' }, 2 * i + 1, 1 + chance(3));
  }));
}

/** What stands where is found as by looking at all, and so much sooner that a full page has it between two moves of a hand. */
function testGrid() {
  const chance = chanceOf(7), items = itemsAtRandom(2_000, chance), grid = new Grid(), left = items.filter((_, i) => i % 3);
  grid.change([], items);
  grid.change(items.filter((_, i) => i % 3 === 0), []);
  const wrong = Array.from({ length: 400 }, () => {
    const at = { x: chance(30_000), y: chance(50_000) }, near = chance(300), box = { x0: at.x, y0: at.y, x1: at.x + chance(chance(2) ? 3_000 : 300_000), y1: at.y + chance(3_000) };
    const found = grid.within(box, left).filter((item) => meets(item, box)), all = left.filter((item) => meets(item, box));
    return found.length !== all.length || found.some((item, i) => item !== all[i]) || grid.itemAt(at, near) !== itemAt(left, at, near) || (all.length > 0 && !grid.hasAny(box));
  }).filter(Boolean).length;
  check('points and boxes in which another item is found', wrong, 0);
  check('an empty part of the page', [grid.hasAny({ x0: 262_200, y0: 491_600, x1: 262_201, y1: 491_601 }), new Grid().itemAt({ x: 5, y: 5 }, 100)], [false, undefined]);
  const many = itemsOf(Array.from({ length: 60_000 }, (_, i) => named(line(4 * (i % 250), 4 * Math.floor(i / 250), 4 * (i % 250) + 2, 4 * Math.floor(i / 250) + 2), 2 * i + 1))), full = new Grid();
  full.change([], many);
  const points = Array.from({ length: 2_000 }, () => ({ x: chance(64_000), y: chance(115_000) })), began = performance.now();
  points.forEach((at) => full.itemAt(at, 45));
  const each = (performance.now() - began) / points.length;
  console.log(`a point among ${many.length} items takes ${each.toFixed(4)} ms`);
  check('it is found in time', each < (process.env.WB_MEASURE ? 0.2 : 2), true);
}

/** A program that answers too late, or in part: nothing is thrown, so the page goes on. */
async function testLateAnswers() {
  const member = new HttpMember('token'), { fetch } = globalThis, late = () => Promise.reject(new Error('signal timed out')), shown = { page: '1/1', drawops: [] };
  const answers = async (/** @type {any} */ answer) => {
    globalThis.fetch = /** @type {any} */ (answer);
    return [await member.read('1/1'), await member.record(), await member.choose('1/1')];
  };
  const none = { ok: false, fault: 'wb-live does not answer', status: 0 };
  try {
    check('what comes', await answers(async () => ({ ok: true, json: async () => shown, text: async () => 'board' })), [shown, 'board', shown]);
    check('what comes in part', await answers(async () => ({ ok: true, json: late, text: late })), [null, null, none]);
    check('what does not come', await answers(late), [null, null, none]);
    check('what is refused', (await answers(async () => ({ ok: false, status: 503, json: async () => ({ ok: false, fault: 'busy' }) }))), [null, null, { ok: false, fault: 'busy', status: 503 }]);
  } finally {
    globalThis.fetch = fetch;
  }
}

/** What is drawn is asked for under one name until it is answered, many at once, in the order of the hand. */
async function testAskedAgain() {
  const member = new HttpMember('token'), { fetch } = globalThis, /** @type {any[]} */ bodies = [], /** @type {any[]} */ told = [];
  const busy = { ok: false, fault: 'busy', status: 503 }, no = { ok: false, fault: 'word 3', status: 422 };
  /** @type {((many: any[]) => any)[]} */
  const answers = [
    () => { throw new Error('it is away'); },
    () => ({ ok: false, status: 503, json: async () => busy }),
    (many) => ({ ok: true, json: async () => ({ ok: true, answers: many.map((_, i) => (i < 2 ? { ok: true, seq: i + 1 } : busy)) }) }),
    (many) => ({ ok: true, json: async () => ({ ok: true, answers: many.map((_, i) => (i ? no : { ok: true, seq: 3 })) }) }),
    () => ({ ok: true, json: async () => ({ ok: true, page: '1/2' }) }),
  ];
  member.hear = (name, news) => told.push([name, news]);
  globalThis.fetch = /** @type {any} */ (async (/** @type {string} */ path, /** @type {any} */ { body }) => {
    bodies.push([path, JSON.parse(body)]);
    return (/** @type {any} */ (answers[bodies.length - 1]))(bodies[bodies.length - 1][1].many);
  });
  try {
    const given = await Promise.all([...['a', 'b', 'c', 'd'].map((op) => member.draw('1/1', op)), member.choose('1/2')]);
    const asked = bodies.slice(0, 4).map(([path, { many }]) => [path, many.map((/** @type {any} */ each) => each.op).join('')]);
    check('what was asked', asked, [['draw', 'a'], ['draw', 'abcd'], ['draw', 'abcd'], ['draw', 'cd']]);
    check('each under one name', new Set(bodies.slice(0, 4).flatMap(([, { many }]) => many.map((/** @type {any} */ { id, op }) => id + op))).size, 4);
    check('and what else was asked for after it', bodies[4], ['page', { page: '1/2' }]);
    check('what came of each', given.map(({ ok, seq }) => (ok ? seq ?? 'turned' : 'no')), [1, 2, 3, 'no', 'turned']);
    check('how many waited', [told.map(([, many]) => many)[3], told[told.length - 1]], [4, ['unsent', 0]]);
  } finally {
    globalThis.fetch = fetch;
  }
}

for (const each of [testSession, testBeside, testGrid, testChanges, testNotes, testSeen, testNews, testLetters, testLeaves, testErased, testStretch, testState, testExports,
  testFilm, testCells, testShapes, testTexts, testWords, testColours, testPeoplesColours, testLayout, testFlood, testOrder, testLateAnswers, testAskedAgain]) test(each.name.slice('test'.length), each);
