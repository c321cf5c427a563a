// Tests the last drawing before a pause, which is sent again: `tests/live/test_tails.py` once more.
import { Tails, WAITS } from '../../web/member/tails.js';
import { check } from '../check.mjs';
import { datagramOf } from './worded.mjs';

const SECOND = 1_000_000, LATELY = 60 * SECOND, MOST_PAGES = 16, [FIRST, LAST] = WAITS;
// a drawing of ours, and what stands for its bytes
const drawing = (seq, page = '1/1') => /** @type {const} */ ([{ page, seq }, `${page}-${seq}`]);

/** What we drew last, on these pages, where somebody has asked for a drawing of another. */
function lossy(...drawn) {
  const tails = new Tails(7);
  tails.hear(datagramOf('request 8 9 1/1 1'), 0);
  for (const drawop of drawn) tails.drew(...drawop, 0);
  return tails;
}

function testWaits() {
  const tails = lossy();
  check('nothing was drawn', [tails.due(), tails.take(9 * SECOND)], [null, []]);
  tails.drew(...drawing(1), 100);
  check('a drawing is sent again after a quarter of a second, and after a second', [tails.due(), tails.take(99 + FIRST), tails.take(100 + FIRST), tails.due(),
    tails.take(99 + LAST), tails.take(100 + LAST), tails.due(), tails.take(9 * SECOND)], [100 + FIRST, [], ['1/1-1'], 100 + LAST, [], ['1/1-1'], null, []]);
  tails.drew(...drawing(2), 0);
  tails.drew(...drawing(3), FIRST - 1);
  check('one that another follows is not', [tails.take(FIRST), tails.take(2 * FIRST - 1)], [[], ['1/1-3']]);
  tails.drew(...drawing(4), SECOND);
  check('nor is one that was sent again once', [tails.take(SECOND + FIRST), tails.due()], [['1/1-4'], SECOND + LAST]);
  tails.drew(...drawing(1, '2/1'), SECOND);
  check('each page has one', tails.take(SECOND + LAST).sort(), ['1/1-4', '2/1-1']);
}

function testQuiet() {
  const tails = new Tails(7);
  for (const [asked, wanted] of [[null, []], [0, ['1/1-1']], [LAST - LATELY, ['1/1-1']], [LAST - LATELY - 1, []]]) {
    if (asked !== null) tails.asked(asked);
    tails.drew(...drawing(1), 0);
    check(`the last time is where something was lost lately, as at ${asked}`, [tails.take(FIRST), tails.take(LAST), tails.due()], [['1/1-1'], wanted, null]);
  }
}

function testTold() {
  const goes = (words) => {
    const tails = lossy(drawing(5));
    tails.hear(datagramOf(words), 1);
    return tails.take(FIRST);
  };
  const known = ['request 8 7 1/1 5', 'draw 7 1/1 5 10 line 0 1 4 1 *', 'session-message 8 50 1/1 7=5 9=3', 'session-message 8 50 1/1 7=6', 'page-state 8 1/1 7=5'];
  check('what others ask for, send or report they know of', known.map(goes), known.map(() => []));
  const others = ['request 8 7 1/1 4', 'request 8 9 1/1 5', 'request 8 7 1/2 5', 'draw 7 1/1 4 10 line 0 1 4 1 *', 'draw 9 1/1 5 10 line 0 1 4 1 *', 'ask-pages 8',
    'session-message 8 50 1/1 7=4', 'session-message 8 50 1/2 7=5', 'session-message 8 50 1/1 9=5', 'session-message 8 50 1/1', 'page-state 8 1/1 7=4'];
  check('and nothing else', others.map(goes), others.map(() => ['1/1-5']));
}

function testBounds() {
  const tails = new Tails(7), pages = Array.from({ length: MOST_PAGES + 2 }, (_, page) => `1/${page}`);
  pages.forEach((page, at) => tails.drew(...drawing(1, page), at));
  tails.drew(...drawing(2, '1/2'), 99);
  check('of many pages the last wait', [...tails.tails.keys()].sort(), pages.slice(2).sort());
  tails.drew(...drawing(1, '2/1'), 100);
  check('the one that was drawn on first goes', tails.tails.has('1/3'), false);
}

export function testTails() {
  for (const test of [testWaits, testQuiet, testTold, testBounds]) test();
}
