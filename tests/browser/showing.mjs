// What a page shows, by a host of the module: what is put in where, and what is hidden, drawop by drawop.
import { Board } from '../../web/member/board.js';
import { Drawn } from '../../web/member/drawn.js';
import { Record } from '../../web/member/record.js';
import { Showing } from '../../web/member/showing.js';
import { drawopOf } from '../../web/member/views.js';
import { check } from '../check.mjs';

const PAGE = '7/1', START = { cells: 100, rate: 4_000, many: '2,8,1,6', mayHaveDrawn: false };

/** A page at a host that takes in drawops one after another, and what a member learns of each. */
class AtHost {
  constructor(board) {
    [this.board, this.drawn, this.showing, this.changes] = [board, new Drawn(), new Showing(PAGE), []];
  }

  static async with(program, ...lines) {
    const board = new Board(program, new Record(null, 'here', 1), START, { here: null, strangers: null }, () => {});
    await board.open(1);
    const at = new AtHost(board);
    for (const line of lines) at.changes.push(await at.add(line));
    return at;
  }

  async add(line) {
    if ((await this.board.tell(`held ${line}`)).said('drew').length) this.drawn.add(drawopOf(line));
    return this.renew();
  }

  async renew() {
    const { before, added, hidden } = await this.showing.renew(this.board, this.drawn.sheet(PAGE));
    return [before.map(({ name }) => name), added.map(([place, { name }]) => [place, name]), hidden.map(({ name }) => name)];
  }

  shown() {
    return this.showing.shown.map(({ name }) => name);
  }

  hidden() {
    return [...this.showing.hidden.keys()];
  }
}

const LINES = ['draw 7 7/1 1 10 line 0 1 4 1 *', 'draw 7 7/1 2 90 line 0 1 4 1 *', 'draw 8 7/1 1 50 delete 7 1', 'draw 8 7/1 2 60 restore 7 1',
  'draw 9 7/1 1 60 delete 7 1', 'draw 7 7/1 3 5 frame 0 0 4 1 +'];

export async function testShowing(program) {
  for (let round = 0; round < 20; round += 1) {
    const at = await AtHost.with(program, ...[...LINES].sort(() => Math.random() - 0.5));
    check('what is shown, in any order of coming', at.shown(), ['7 7/1 3', '7 7/1 2']);
    check('and what is hidden', at.hidden(), ['7 7/1 1']);
    const told = at.changes.flatMap(([before, , hidden]) => [...before, ...hidden]);
    check('nothing else was ever told to change, or to be hidden', told.filter((name) => name !== '7 7/1 1'), []);
  }
  await testOrder(program);
  await testLate(program);
}

/** What lies on what, and what a delete or a restore does, in the order of their times and not of their coming. */
async function testOrder(program) {
  const line = (source, seq, time) => `draw ${source} 7/1 ${seq} ${time} line 0 1 4 1 *`;
  const above = await AtHost.with(program, line(8, 1, 5), line(7, 2, 5), line(7, 3, 5), line(7, 1, 5), line(9, 1, 4));
  check('of one time the greater source lies above, and then the greater number', above.shown(), ['9 7/1 1', '7 7/1 1', '7 7/1 2', '7 7/1 3', '8 7/1 1']);
  const back = await AtHost.with(program, line(7, 1, 5), 'draw 8 7/1 1 50 delete 7 1', 'draw 8 7/1 2 60 restore 7 1');
  check('what was restored is shown, and not hidden', [back.shown(), back.hidden()], [['7 7/1 1'], []]);
  for (const words of ['draw 8 7/1 3 70 delete 8 1', 'draw 9 7/1 1 55 delete 7 1']) {
    check('a delete of a delete, and an earlier one, change nothing', [await back.add(words), back.shown(), back.hidden()], [[[], [], []], ['7 7/1 1'], []]);
  }
  check('a later one does, which is told', [await back.add('draw 8 7/1 4 80 delete 7 1'), back.shown(), back.hidden()], [[['7 7/1 1'], [], ['7 7/1 1']], [], ['7 7/1 1']]);
  const late = await AtHost.with(program, line(7, 9, 5), line(7, 2, 6)), sheet = late.drawn.sheet(PAGE);
  check('the greatest number of a source, whichever came last', sheet.tops.get(7), 9);
  check('what is held is shown as it is held', late.showing.shown.every((drawop) => sheet.drawops.get(drawop.name) === drawop), true);
  await late.board.tell(`held ${line(7, 4, 5)}`); // of which the member knows nothing
  check('what the host alone has is shown', [await late.renew(), late.shown()], [[[], [[0, '7 7/1 4']], []], ['7 7/1 4', '7 7/1 9', '7 7/1 2']]);
}

/** Some at once, by how many drawops are held on all pages. */
async function testLate(program) {
  const [first, second] = LINES, at = await AtHost.with(program, first, 'draw 9 7/2 1 5 line 0 0 1 1 *', second);
  check('one comes after its delete', [await at.add('draw 8 7/1 1 50 delete 9 1'), await at.add('draw 9 7/1 1 20 line 0 0 1 1 *')], [[[], [], []], [[], [], ['9 7/1 1']]]);
  for (const words of ['draw 8 7/1 2 60 delete 7 1', 'draw 8 7/1 3 60 restore 9 1', 'draw 9 7/1 2 10 line 0 0 1 1 *']) at.drawn.add(drawopOf((await at.board.tell(`held ${words}`), words)));
  check('a delete, a restore and a drawing at once', await at.renew(), [['7 7/1 1', '9 7/1 1'], [[0, '9 7/1 2'], [1, '9 7/1 1']], ['7 7/1 1']]);
  check('each stands where it belongs', [at.shown(), at.hidden()], [['9 7/1 2', '9 7/1 1', '7 7/1 2'], ['7 7/1 1']]);
  check('nothing is new', await at.renew(), [[], [], []]);
  for (const words of ['draw 7 7/1 4 12 line 0 0 1 1 *', 'draw 8 7/1 4 100 delete 7 4']) at.drawn.add(drawopOf((await at.board.tell(`held ${words}`), words)));
  check('one that comes with its delete was not there before', await at.renew(), [[], [], ['7 7/1 4']]);
  const both = await AtHost.with(program, first, second);
  for (const words of ['draw 8 7/1 1 200 delete 7 1', 'draw 8 7/1 2 201 delete 7 2', 'draw 8 7/1 3 202 restore 7 1', 'draw 8 7/1 4 203 delete 7 1']) both.drawn.add(drawopOf((await both.board.tell(`held ${words}`), words)));
  await both.renew();
  check('what was deleted last is the last that is hidden', both.hidden(), ['7 7/1 2', '7 7/1 1']);
}
