// The line of the pen: it has no kink that the hand had not. Hands are curves with a speed, told as screens tell them: 60 or 120 times a second, off by
// up to half a point, on whole points or between them. What the pen of the page makes of each is cut into pieces of three points of the screen, and
// the turn from piece to piece is compared with that of the curve there. `node tests/ui/kinks.test.mjs rows` prints a row for each hand.
import test from 'node:test';
import { along, bend } from '../../live/ui/inkcurves.js';
import { itemsOf } from '../../live/ui/inkitems.js';
import { outlineOf } from '../../live/ui/inkoutline.js';
import { placed } from '../../live/ui/inkwriting.js';
import { check } from '../check.mjs';

globalThis.addEventListener ??= () => {};
const { Pen } = await import('../../live/ui/pen.js');

/** Units of a point of the screen at 100 %, points of it that a piece is long, and degrees that are a kink. */
const UNITS = 6.4, PIECE = 3, KINK = 6;

const RATES = [60, 120], SEEDS = [1, 2], MORE_SEEDS = [1, 2, 3, 4];

/** How a screen tells a point: on the nearest whole one, as browsers tell a mouse; on the one before, as WebKit does; or between them, as of a finger. */
const ROUNDS = { nearest: Math.round, before: Math.floor, between: (n) => n };

/** A way by a part of it from 0 to 1, as one by its length in points of the screen. */
function measured(way, many = 4_000) {
  const points = Array.from({ length: many + 1 }, (_, i) => way(i / many)), far = [0];
  for (let i = 1; i <= many; i += 1) far.push(far[i - 1] + Math.hypot(points[i].x - points[i - 1].x, points[i].y - points[i - 1].y));
  const at = (s) => {
    let [low, high] = [1, many];
    while (low < high) {
      const half = (low + high) >> 1;
      if (far[half] < s) low = half + 1;
      else high = half;
    }
    const part = (s - far[low - 1]) / (far[low] - far[low - 1] || 1), [a, b] = [points[low - 1], points[low]];
    return { x: a.x + (b.x - a.x) * part, y: a.y + (b.y - a.y) * part };
  };
  return { long: far[many], at };
}

const ring = (x, y, r) => measured((t) => ({ x: x + r * Math.cos(2 * Math.PI * t), y: y + r * Math.sin(2 * Math.PI * t) }));

/** Straight from corner to corner. */
const straight = (...corners) => measured((t) => {
  const at = Math.min(corners.length - 1 - 1e-9, t * (corners.length - 1)), i = Math.floor(at), [[x0, y0], [x1, y1]] = [corners[i], corners[i + 1]];
  return { x: x0 + (x1 - x0) * (at - i), y: y0 + (y1 - y0) * (at - i) };
});

/** Hands with their speeds, in points of the screen a second. */
const HANDS = {
  'a circle': [ring(400, 400, 100), 450],
  'a large circle': [ring(600, 600, 250), 900],
  'an S': [measured((t) => ({ x: 500 + 120 * Math.sin(2 * Math.PI * t), y: 200 + 400 * t })), 600],
  'a fast flick': [measured((t) => ({ x: 200 + 900 * t, y: 600 - 260 * Math.sin(0.8 * Math.PI * t) })), 3000],
  'a slow line': [straight([200, 300], [360, 370]), 60],
};

/** Hands that turn by 10 degrees and more from piece to piece themselves: for these the pen may differ by more. */
const CLOSE = { 'a small o': [ring(300, 300, 14), 150],
  loops: [measured((t) => ({ x: 200 + 300 * t + 26 * Math.cos(12 * Math.PI * t), y: 400 + 36 * Math.sin(12 * Math.PI * t) })), 350] };
const CLOSELY = 15;

/** Letters of hands, by how high they are in millimetres: a hand writes five of their heights a second. */
const MILLIMETRE = 96 / 25.4, HEIGHTS = [3, 5, 7, 10], LETTERS = {
  circle: (high) => ring(300, 300, high / 2),
  o: (high) => measured((t) => ({ x: 300 + 0.42 * high * Math.cos(2 * Math.PI * t), y: 300 + 0.5 * high * Math.sin(2 * Math.PI * t) })),
  c: (high) => measured((t) => ({ x: 300 + 0.5 * high * Math.cos(0.7 + 5 * t), y: 300 - 0.5 * high * Math.sin(0.7 + 5 * t) })),
};

/** Degrees that one of them may have more than its hand in the middle of all tellings. All together have less than a kink. */
const SMALL = 6.5;

const letter = (name, millimetres) => [LETTERS[name](millimetres * MILLIMETRE), 5 * millimetres * MILLIMETRE];

const CORNERS = { 'a square': [[[200, 200], [320, 200], [320, 320], [200, 320], [200, 200]], 300], 'a V': [[[200, 200], [260, 330], [320, 200]], 400],
  'a small square': [[[200, 200], [218, 200], [218, 218], [200, 218], [200, 200]], 80, 50], 'a small V': [[[200, 200], [206, 218], [212, 200]], 60] };

const chanceOf = (seed) => () => {
  seed = (Math.imul(seed, 1664525) + 1013904223) >>> 0;
  return seed / 2 ** 32;
};

/** What a screen tells of a hand, in points of it, with the milliseconds: of one that trembles by up to half a point, or only by what the screen is off. */
function told([{ long, at }, speed], rate, rounds, seed, trembles = true) {
  const chance = chanceOf(seed), many = Math.max(3, Math.ceil((long / speed) * rate)), off = () => (trembles || rounds === ROUNDS.between ? chance() - 0.5 : 0);
  const [aside, down] = trembles ? [0, 0] : [chance(), chance()];
  return Array.from({ length: many + 1 }, (_, i) => {
    const { x, y } = at((long * i) / many);
    return { x: rounds(x + aside + off()) - aside, y: rounds(y + down + off()) - down, time: (1000 * i) / rate };
  });
}

/** What the pen of the page makes of points: the items, and how many texts they are. */
function penned(points, kind = 's') {
  const texts = [], inUnits = (point) => ({ ...point, x: point.x * UNITS, y: point.y * UNITS });
  const pen = new Pen({ view: { wide: 10 }, session: { on() {}, board: { page: '1/1' } }, painter: { soon() {} }, steps: { begin: () => ({ draw: ({ text }) => texts.push(text) }) },
    hand: { placed: (text) => placed(text, 0) } });
  pen.begin({ kind, colour: 0, width: 2 }, inUnits(points[0]));
  points.slice(1).forEach((point) => pen.move([inUnits(point)]));
  pen.end();
  pen.flush();
  return { items: itemsOf(texts.map((text, i) => ({ ...placed(text, i), source: 1, seq: i + 1, time: String(i) }))), texts: texts.length };
}

const onScreen = (points) => points.map(({ x, y }) => ({ x: x / UNITS, y: y / UNITS }));

/** The painted line of a stroke, close to the curve. */
function lineOf({ points }) {
  const line = [points[0]];
  points.slice(1).forEach((to, i) => {
    const [b, c] = bend(points, i), many = Math.max(2, Math.ceil(Math.hypot(to.x - points[i].x, to.y - points[i].y) / 4));
    for (let k = 1; k <= many; k += 1) line.push(along(points[i], b, c, to, k / many));
  });
  return onScreen(line);
}

/** One side of the outline of a stroke with pressure. */
function sideOf(item) {
  const points = outlineOf(item).slice(1).split('Z')[0].split('L').map((each) => each.split(' ').map(Number)).map(([x, y]) => ({ x, y }));
  return onScreen(points.slice(0, points.length / 2));
}

/** A line in pieces of one length: where they end. */
function ended(line, long = PIECE) {
  const ends = [line[0]];
  let last = line[0];
  line.slice(1).forEach((to, i) => {
    for (let far = Math.hypot(to.x - last.x, to.y - last.y); far >= long; far = Math.hypot(to.x - last.x, to.y - last.y)) {
      const from = line[i], part = Math.max(0, Math.min(1, 1 - (far - long) / (Math.hypot(to.x - from.x, to.y - from.y) || 1)));
      last = { x: from.x + (to.x - from.x) * part, y: from.y + (to.y - from.y) * part };
      ends.push(last);
    }
  });
  return ends;
}

function turn(a, b, c) {
  const angle = Math.atan2(c.y - b.y, c.x - b.x) - Math.atan2(b.y - a.y, b.x - a.x);
  return (Math.atan2(Math.sin(angle), Math.cos(angle)) * 180) / Math.PI;
}

/** By how many degrees a line turns more, from one piece to the next, than the hand does there: the most. */
function kinkOf(line, [{ long, at }]) {
  const ends = ended(line);
  let [near, worst] = [0, 0];
  for (let i = 1; i + 1 < ends.length; i += 1) {
    const off = (s) => Math.hypot(at(s).x - ends[i].x, at(s).y - ends[i].y);
    let best = near;
    for (let s = near; s <= Math.min(long, near + 8 * PIECE); s += PIECE / 8) if (off(s) < off(best)) best = s;
    near = best;
    if (near > PIECE && near < long - PIECE) worst = Math.max(worst, Math.abs(turn(ends[i - 1], ends[i], ends[i + 1]) - turn(at(near - PIECE), at(near), at(near + PIECE))));
  }
  return worst;
}

/** The worst kinks of a hand in all ways of telling it, from the least on, and the texts that it takes at most. */
function kinksOf(hand, kind = 's', shown = lineOf, seeds = SEEDS, trembles = true) {
  const all = RATES.flatMap((rate) => Object.values(ROUNDS).flatMap((rounds) => seeds.map((seed) => penned(told(hand, rate, rounds, seed, trembles), kind))));
  all.forEach(({ items }) => check('it is one item', items.length, 1));
  return { kinks: all.map(({ items }) => kinkOf(shown(items[0]), hand)).sort((a, b) => a - b), texts: Math.max(...all.map(({ texts }) => texts)) };
}

function worstOf(hand, kind = 's', shown = lineOf) {
  const { kinks, texts } = kinksOf(hand, kind, shown);
  return { worst: kinks.at(-1), texts };
}

/** Of a small letter the kinks of all tellings, from the least on. */
const smallOf = (name, millimetres) => kinksOf(letter(name, millimetres), 's', lineOf, MORE_SEEDS, false).kinks;

const middle = (kinks) => kinks[kinks.length >> 1];

const isBelow = (name, { worst }, most) => check(`${name}: ${worst.toFixed(1)} degrees`, worst < most, true);

/** How much a line turns about a place, from six points before it to six after it. */
function turnAbout(line, [x, y]) {
  const ends = ended(line, 1), far = ({ x: px, y: py }) => Math.hypot(px - x, py - y);
  const i = ends.reduce((best, each, k) => (far(each) < far(ends[best]) ? k : best), 0), k = Math.max(7, Math.min(ends.length - 8, i));
  // the two pieces of three points that lie farther from the corner
  return Math.abs(turn(ends[k - 6], ends[k], ends[k + 6]));
}

if (process.argv[2] === 'rows') {
  for (const [name, hand] of Object.entries({ ...HANDS, ...CLOSE })) {
    const even = worstOf(hand), lively = worstOf(hand, 'v', sideOf);
    console.log(`${name}: ${even.worst.toFixed(1)} degrees, ${even.texts} texts; by speed ${lively.worst.toFixed(1)}, ${lively.texts}`);
  }
  for (const high of HEIGHTS) {
    for (const name of Object.keys(LETTERS)) {
      const kinks = smallOf(name, high);
      console.log(`${name} of ${high} mm: ${middle(kinks).toFixed(1)} degrees, at most ${kinks.at(-1).toFixed(1)}`);
    }
  }
} else {
  test('no kink that the hand had not', () => {
    for (const [name, hand] of Object.entries(HANDS)) isBelow(name, worstOf(hand), KINK);
    for (const [name, hand] of Object.entries(CLOSE)) isBelow(name, worstOf(hand), CLOSELY);
  });
  test('nor has the outline of a stroke that is thinner where it is fast', () => {
    for (const name of ['a circle', 'an S', 'a fast flick']) isBelow(name, worstOf(HANDS[name], 'v', sideOf), KINK);
  });
  test('nor has a small letter, in the middle of its tellings', () => {
    for (const high of HEIGHTS) {
      const letters = Object.keys(LETTERS).map((name) => [name, smallOf(name, high)]);
      for (const [name, kinks] of letters) isBelow(`${name} of ${high} mm`, { worst: middle(kinks) }, SMALL);
      isBelow(`letters of ${high} mm`, { worst: middle(letters.flatMap(([, kinks]) => kinks).sort((a, b) => a - b)) }, KINK);
    }
  });
  test('corners that the hand made stay', () => {
    for (const [name, [corners, speed, degrees = 60]] of Object.entries(CORNERS)) {
      const hand = [straight(...corners), speed], inner = corners.slice(1, -1);
      const least = Math.min(...RATES.flatMap((rate) => SEEDS.flatMap((seed) => inner.map((corner) => turnAbout(lineOf(penned(told(hand, rate, Math.round, seed)).items[0]), corner)))));
      check(`${name}: turns by ${least.toFixed(0)} degrees`, least > degrees, true);
    }
  });
  test('a hand that goes faster draws thinner, and a long stroke ends in points', () => {
    const pressures = (name) => penned(told(HANDS[name], 120, Math.round, 1), 'v').items[0].points.map(({ pressure }) => pressure), most = (name) => Math.max(...pressures(name));
    check('thinner', most('a slow line') > most('a circle') && most('a circle') > most('a fast flick'), true);
    for (const name of ['a circle', 'an S', 'a slow line']) check(`${name} ends in points`, [pressures(name)[0], pressures(name).at(-1)].every((end) => end < most(name) / 2), true);
  });
}
