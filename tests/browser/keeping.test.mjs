// A member over the module that WB_MODULE names: what its host keeps by itself, and what its record has of it. From any earlier record a start goes
// on with all that is held.
import fs from 'node:fs';
import test from 'node:test';
import { Board, BoardFault, NoRoom } from '../../web/member/board.js';
import { readDatagram, unhex } from '../../web/member/datagram.js';
import { heldOf, nameIn } from '../../web/member/held.js';
import { HostEnded, Program } from '../../web/member/host.js';
import { Inbox } from '../../web/member/inbox.js';
import { Member } from '../../web/member/member.js';
import { numberOf, pointLine, takePoint } from '../../web/member/origins.js';
import { FIRST_LINE, Record, actsOf } from '../../web/member/record.js';
import { drawopOf } from '../../web/member/views.js';
import { check } from '../check.mjs';
import { testShowing } from './showing.mjs';
import { drawAll, drawOn } from './worded.mjs';

const file = process.env.WB_MODULE, PAGE = '1/1', SECOND = 1_000_000;
const BEYOND = 0x7fff0000; // a place beyond the end of the memory, where a call traps
const ANYWHERE = { place: '5', owner: null };
const START = { cells: 100, rate: 4_000, many: '2,8,1,6', mayHaveDrawn: false };

// every kind of line that a record of an earlier page had, with a mark of our own number, and two drawings of ours
const OLD = ['# constants 2,4,1,8 for 60 members at 2025-01-01 10:00:00', 'board 7 100 1 42', '# started at 2025-01-01 10:00:00', 'tick 5',
  'say draw 7 1/1 1 1000 line 0 0 4 0 o', 'datagram 57420101000000220000000800000001000000010000000100000000000003e70100000000000200006f',
  'tick 9', 'page-state 9 1/1 7=5', 'say draw 7 1/1 6 1001 line 0 1 4 1 o', '# the host broke off (it ended with 4) at: look 1 1 ..'];

/** A host of a record, and what it tells of drawops. */
async function boardOf(program, record, more = {}) {
  const held = [], board = new Board(program, record, { ...START, ...more }, { here: null, strangers: null }, (drawop) => held.push(drawop));
  await board.open(1);
  return { board, held };
}

/** Datagrams in words as their bytes, which hosts of their speakers say. */
async function bytesOf(program, ...many) {
  const host = await program.start();
  return many.map((words) => {
    host.renew();
    host.ask(`board ${words.split(' ', 2)[1]} 1 1 1`);
    return host.ask(`say ${words}`).sent()[0];
  });
}

/** All that the page shows. */
const viewOf = async (board) => (await board.since(PAGE, 0)).shown.map(([, drawop]) => drawop);

/** The number of the next drawing on the page. */
const nextOf = async (board) => Number((await board.tell('next 1 1')).lines[0].split(' ')[1]);

async function testOld(program) {
  const record = new Record(null, 'here', 7);
  record.add(...OLD);
  const made = heldOf(actsOf(OLD)), [, , , , own, , , mark, last] = OLD;
  check('what the lines of an old record made', [made.board, made.moment, made.lines], ['board 7 100 1 42', 9, [own, OLD[5], mark, last]]);
  const { board, held } = await boardOf(program, record);
  check('each drawop is held', held.map(({ name }) => name).sort(), ['7 1/1 1', '7 1/1 6', '8 1/1 1']);
  check('the number is one above what was drawn', [board.me, board.cells, await nextOf(board)], [7, 100, 7]);
  check('the host judges, so nothing comes without its origin', [(await board.tell('look 1 1')).fault, board.host.came(board.now(), unhex(OLD[5].slice(9))).refused], ['kept', 'judged']);
  const { drawop } = await board.draw(PAGE, 'line 0 3 4 3 o'), lines = await record.lines();
  check('the record keeps its lines, and has the drawing', [lines.slice(0, OLD.length), lines.at(-1), drawop.seq], [OLD, `say ${drawop.words}`, 7]);
  const again = await boardOf(program, record);
  check('a start goes on', [again.held.length, await nextOf(again.board)], [4, 8]);
  const early = new Record(null, 'here', 7);
  early.add('board 7 100 1 42', 'datagram 5742', 'datagram 574', 'draw 8 1/1 1 5 line 0 0 4 0 o', 'keep 4000 0');
  check('a line that brings nothing is left out', (await boardOf(program, early)).held.map(({ name }) => name), ['8 1/1 1']);
  await boardOf(program, Object.assign(new Record(null, 'here', 7), { held: ['board 7 0 1 42'] })).then(() => 'none', (fault) => fault.message)
    .then((told) => check('a board that no host has', told, 'no host can have this board: board 7 0 1 42 (number)'));
}

/** What earlier builds wrote: datagrams of any kind in hexadecimal, and whole reports in words. */
function testLines() {
  const mark = '574201050000001600000009000000070000000200010000000800000004', [, , , , , stranger] = OLD, digits = stranger.slice(9);
  const acts = [`arrive ${digits}`, `hear ${mark}`, 'hear 574201040000000400000009', `hear ${mark.replace('00000008', '00000007')}`, 'session-message 9 5 7/2 6=1 8=3 8@5+10', 'say page-state 8 7/2 9=2', 'draw 7 7/1 1 5 delete 9 1', 'look 1 1'];
  check('drawops, and marks of ours alone', heldOf(['board 8 100 1 42', ...acts]).lines, [`datagram ${digits}`, 'page-state 9 7/2 8=4', 'page-state 9 7/2 8=3', 'draw 7 7/1 1 5 delete 9 1']);
  check('the names of what others drew', [OLD[5], 'draw 7 7/1 1 5 delete 9 1', 'datagram 5742010100000022ffffffff00000007ffffffff0000ffffffffffffffffffff02000000010fff00027e'].map(nameIn),
    ['8 1/1 1', '7 7/1 1', '4294967295 7/4294967295 65535']);
}

async function testMarks(program) {
  const record = new Record(null, 'here', 7);
  record.add('board 7 100 1 42', 'tick 5', 'page-state 9 1/1 7=5');
  const { board } = await boardOf(program, record);
  check('a mark of ours whose drawop never came is a number that is not used', await nextOf(board), 6);
  const young = await boardOf(program, new Record(null, 'here', 1), { mayHaveDrawn: true }), listening = young.board.readyAt - young.board.moment;
  await young.board.came(...await bytesOf(program, 'page-state 9 1/1 1=5'), ANYWHERE);
  check('who may have drawn listens', [(await young.board.draw(PAGE, 'line 0 0 4 0 o')).block.fault, listening], ['listening', 6 * SECOND]);
  check('and counts on from what is told, also at the next start', [await nextOf(young.board), (await young.board.record.lines()).at(-1)], [6, 'page-state 9 1/1 1=5']);
}

/** What a new host gets: its board, how it judges, the constants of the timers, and the lines of the record. */
async function testBegun(program) {
  const lines = [], record = new Record(null, 'here', 7), noting = { start: async () => {
    const host = await program.start(), { ask } = host;
    return Object.assign(host, { ask: (line) => { lines.push(line); return ask.call(host, line); } });
  } };
  record.add(...OLD);
  const board = new Board(noting, record, { ...START, mayHaveDrawn: true }, { here: 'ann', strangers: 3 }, () => {});
  await board.open(7);
  const [opened, judged, tuned, ...held] = lines, [, moment, rate, listen, wall, here, strangers] = judged.split(' ');
  check('its board', opened, 'board 7 100 1 42');
  check('how it judges', [Number(moment) === board.begunAt, rate, listen, here, strangers], [true, '4000', '6000000', `${numberOf('ann')}`, '3']);
  check('the time of day', Math.abs(Number(wall) - Date.now() * 1_000) < SECOND, true);
  check('the rest', [tuned, held], ['tuning 1 1 1 1', heldOf(actsOf(OLD)).lines.map((line) => `held ${line}`)]);
  await board.tune('2,4,1,3');
  await board.tick(board.moment + SECOND);
  lines.splice(0);
  await board.beginAgain();
  check('other constants last, and so does what is left of listening', [lines[2], lines[1].split(' ')[3]], ['tuning 2 4 1 3', '5000000']);
}

/** The clock of a start begins at a moment that nobody guesses, above the record, and there are moments for thousands of starts. */
async function testClock(program) {
  const starts = [];
  for (let start = 0; start < 4; start += 1) {
    const record = new Record(null, 'here', 7);
    record.add('board 7 100 1 42', `tick ${2 ** 47}`);
    const { board } = await boardOf(program, record);
    starts.push(board.moment - 2 ** 47);
    check('it goes on from there', [board.now() > board.moment, board.now() - board.moment < 60 * SECOND], [true, true]);
  }
  const { board } = await boardOf(program, new Record(null, 'here', 7));
  board.base = -Number.MAX_SAFE_INTEGER;
  check('no moment is that of a line before', board.now(), board.moment + 1);
  check('four starts are minutes apart, within a part of the moments that are left', [Math.min(...starts) >= 0, Math.max(...starts) - Math.min(...starts) > 60 * SECOND, Math.max(...starts) < 2 ** 38],
    [true, true, true]);
}

async function testDraw(program) {
  const record = new Record(null, 'here', 1), { board, held } = await boardOf(program, record);
  const before = Date.now() * 1_000, { drawop, block } = await board.draw(PAGE, 'line 0 0 4 0 +');
  check('a drawing of ours', [drawop.words.replace(drawop.time, 'now'), block.sent().map((bytes) => readDatagram(bytes).words), held.length], ['draw 1 1/1 1 now line 0 0 4 0 +', [drawop.words], 0]);
  check('is told once it is on the disk', [await board.settle([drawop]), held.length], [[drawop], 1]);
  check('at the time of day', Math.abs(drawop.time - before) < SECOND, true);
  await board.tellTime(drawop.time - SECOND);
  check('one of an earlier time lies above it', (await board.draw(PAGE, 'text 0 0 "a b"')).drawop.time, drawop.time + 1);
  const wrong = await board.draw(PAGE, 'delete 1 3');
  check('one that aims at itself is none', [wrong.block.fault, wrong.drawop], ['word 5: target is the drawop itself', null]);
  for (const operation of ['delete 1 1', 'restore 1 1', 'frame 0 0 2 2 #']) await board.draw(PAGE, operation);
  const lines = await record.lines();
  check('the record', [lines[0], actsOf(lines).filter((line) => !line.startsWith('tick ')).map((line) => line.split(' ')[0])], [FIRST_LINE, ['board', 'say', 'say', 'say', 'say', 'say']]);
  check('what is shown', (await board.since(PAGE, 0)).shown.map(([place, { seq }]) => [place, seq]), [[0, 1], [1, 2], [2, 5]]);
}

/** What the record can't have, the host does not have either. */
async function testNoRoom(program) {
  const record = new Record(null, 'here', 1), { board, held } = await boardOf(program, record), { write } = record;
  const draw = async (operation) => (await board.settle([(await board.draw(PAGE, operation)).drawop])).map(({ seq }) => seq);
  await draw('line 0 0 4 0 +');
  record.write = async () => { record.fault = 'no room'; };
  check('a drawing for which the record has no room is not settled', [await draw('line 0 1 4 1 +'), record.waiting], [[], []]);
  const faults = [];
  for (let i = 0; i < 2; i += 1) await draw('line 0 1 4 1 +').catch((fault) => faults.push(fault instanceof NoRoom && fault.message));
  check('and refused from then on', faults, ['no room', 'no room']);
  check('the host does not have it either', [await nextOf(board), (await viewOf(board)).length, board.ends.length], [2, 1, 0]);
  record.write = write;
  check('with room one draws on, by the next number', await draw('line 0 1 4 1 +'), [2]);
  check('and the record has it once', [(await record.lines()).filter((line) => line.startsWith('say ')).length, new Set(held.map(({ name }) => name)).size], [2, 2]);
}

/** Drawings that wait together are in the record by one transaction, before any is sent; if the disk does not take it, none is drawn or sent. */
async function testOneSync(program) {
  const member = await quietOf(program), { record } = member.board, { write } = record, order = [], operations = [0, 1, 2].map((row) => `line 0 ${row} 4 ${row} +`);
  const isDrawing = ({ kind }) => kind === 'draw', fates = async () => (await drawAll(member, PAGE, ...operations)).map(({ value, reason }) => value?.seq ?? reason.message);
  record.write = () => { if (record.waiting.some((line) => line.startsWith('say '))) order.push(member.sent.filter(isDrawing).length); return write.call(record); };
  check('three drawings', [await fates(), member.sent.filter(isDrawing).length], [[1, 2, 3], 3]);
  check('were written before any was sent', [...new Set(order)], [0]);
  record.write = async () => { record.fault = 'a disk that fails'; };
  check('three that the disk does not take', await fates(), Array(3).fill('a disk that fails: nothing is drawn until there is room'));
  check('are not sent, held, or numbered', [member.sent.filter(isDrawing).length, member.drawn.total, await nextOf(member.board)], [3, 3, 4]);
}

async function testEnds(program) {
  const record = new Record(null, 'here', 1), { board } = await boardOf(program, record);
  const { drawop } = await board.draw(PAGE, 'line 0 0 4 0 +');
  new DataView(board.host.memory.buffer).setUint32(Number(board.host.place), BEYOND, true);
  const fault = await nextOf(board).catch((it) => it);
  check('a host that broke off is told', [fault instanceof HostEnded, board.ends.length, (await record.lines()).at(-1).startsWith('# the host broke off')], [true, 1, true]);
  check('another goes on from the record', [await nextOf(board), (await viewOf(board)).length], [2, 1]);
  await board.beginAgain();
  check('and so does one that begins again', [await nextOf(board), board.ends.length], [2, 1]);
  const other = new Record(null, 'here', 5), drawn = 'draw 6 1/1 1 60 line 0 2 4 2 +';
  await board.came(...await bytesOf(program, drawn), ANYWHERE);
  record.add('page-state 9 1/1 1=9');
  await board.renumber(5, other);
  const lines = await other.lines(), [own] = lines.filter((line) => line.startsWith('datagram '));
  check('under another number it has all that was held', [board.me, await nextOf(board), (await viewOf(board)).length, lines[0]], [5, 1, 2, FIRST_LINE]);
  check('and what strangers drew is strangers\u2019', [[...board.strange], lines.at(-1)], [['6 1/1 1'], drawn]);
  check('and no mark of the one before', lines.some((line) => line.startsWith('page-state')), false);
  check('and what it drew under the one before is a member\u2019s', readDatagram(unhex(own.slice(9))).words, drawop.words);
  check('and draws', (await board.draw(PAGE, 'line 0 1 4 1 +')).drawop.name, '5 1/1 1');
}

/** A record with a line that no host takes is none to draw on. */
async function testRefused(program) {
  for (const [line, why] of [['say draw 7 1/1 2147483648 5 line 0 0 4 0 o', 'ours'], ['say draw 7 1/1 0 5 line 0 0 4 0 o', 'word 4: sequence number 0']]) {
    const record = new Record(null, 'here', 1);
    record.add('board 7 100 1 42', line);
    const fault = await boardOf(program, record).catch((it) => it);
    check('a line of ours ends the start', [fault instanceof BoardFault, fault.message], [true, `no host takes a line of the record (${why}): ${line}`]);
  }
}

/** A host that breaks off is started again, but not after the fourth time within a minute. */
async function testStarts(program) {
  const { board } = await boardOf(program, new Record(null, 'here', 1));
  const breakOff = () => {
    new DataView(board.host.memory.buffer).setUint32(Number(board.host.place), BEYOND, true);
    return nextOf(board).catch((it) => it.constructor.name);
  };
  check('three times', [await breakOff(), await breakOff(), await breakOff(), await nextOf(board)], ['HostEnded', 'HostEnded', 'HostEnded', 1]);
  board.ends = board.ends.map((end) => end - 60_000);
  check('and three times more a minute later', [await breakOff(), await breakOff(), await breakOff(), await nextOf(board)], ['HostEnded', 'HostEnded', 'HostEnded', 1]);
  check('not the fourth time', [await breakOff(), board.host], ['BoardFault', null]);
  check('then there is no host', await nextOf(board).catch((it) => it.message), 'there is no host');
}

/** What is to be recorded is in the record before anything is sent; and while it can't be written, what others draw is shown all the same. */
async function testBefore(program) {
  const record = new Record(null, 'here', 1), { board } = await boardOf(program, record), written = [], put = record.write;
  board.clock = () => board.moment;
  record.write = () => { written.push([...record.waiting]); return put.call(record); };
  const words = [1, 2].map((seq) => `draw 6 1/1 ${seq} 60 line 0 2 4 2 +`), [first, second] = await bytesOf(program, ...words);
  const isDue = async () => (await board.tick(board.due)).send.length > 0;
  await board.came(first, ANYWHERE);
  check('what nothing is sent with is written soon', [written.length, record.waiting.slice(-1)], [0, [words[0]]]);
  check('and before the next that is sent', [await isDue(), written.flat().at(-1), record.waiting], [true, words[0], []]);
  record.fault = 'no room';
  const before = written.length;
  await board.came(second, ANYWHERE);
  check('without room nothing that is sent waits for it', [await isDue(), record.waiting.slice(-1), written.length], [true, [words[1]], before]);
  check('the host took them', (await viewOf(board)).map((drawop) => drawop.words), words);
}

// ---- what comes in

/** A member that nothing runs: what comes in is handed to it one by one. */
async function quietOf(program, { mayHaveDrawn = false, strangers = null, here = null } = {}, record = new Record(null, 'here', 1)) {
  const sent = [], transport = { where: 'here', state: '', here, strangers, end: () => {}, send: (bytes) => sent.push(readDatagram(bytes)) };
  const options = { notice: '', teach: false, start: { ...START, cells: 1_000, mayHaveDrawn } };
  const member = new Member(program, record, 1, new Inbox(), transport, options, (name, news) => { member[`told ${name}`] = news; });
  await member.open();
  return Object.assign(member, { isReady: !mayHaveDrawn, sent });
}

/** Why each datagram that comes in from there changes nothing, or null if it is taken. */
const told = (program, member, place, ...many) => toldBy(program, member, { place, owner: null }, ...many);

/** The same of an origin. */
async function toldBy(program, member, origin, ...many) {
  const said = [];
  for (const bytes of await bytesOf(program, ...many)) {
    await member.arrive({ bytes, origin, isLost: false, isSecond: false });
    said.push(member.wire.taken().filter(({ way }) => way === 'in').at(-1).refused);
  }
  return said;
}

/** The member's next report, in words. */
async function reportOf(member) {
  const isReport = ({ kind }) => kind === 'session-message';
  for (member.sent.length = 0; !member.sent.some(isReport);) await member.obey(member.board.tick(member.board.due));
  return member.sent.find(isReport).words;
}

/** A member answers our report from there. */
async function meet(program, member, number, place) {
  const [, , moment] = (await reportOf(member)).split(' ');
  return told(program, member, place, `session-message ${number} 77 1/1 1@${moment}+0`);
}

const drawings = (source, first, last, time = 5) => Array.from({ length: last + 1 - first }, (_, i) => `draw ${source} 1/1 ${first + i} ${time} line 0 0 1 1 *`);

async function testOwnMarks(program) {
  const member = await quietOf(program, { mayHaveDrawn: true }), marks = async () => (await member.board.record.lines()).filter((line) => line.startsWith('page-state'));
  check('who listens begins later', member.judging.plan().at(-1)[0], member.board.readyAt);
  await told(program, member, 'x', 'page-state 9 1/1 1=5', 'page-state 8 1/1 1=5');
  check('a mark of our own number is kept, once', await marks(), ['page-state 9 1/1 1=5']);
  check('none that is too great', await told(program, member, 'x', 'page-state 9 1/1 1=65537', 'page-state 9 1/1 1=65536'), ['a mark of ours', null]);
  check('is kept', [(await marks()).length, member.alarms.told()], [2, ['a report tells of a drawing of ours that we did not make']]);
  member.alarms.given.clear();
  await member.obey(member.board.tick(member.board.readyAt));
  await member.begin();
  check('after it none changes anything, and it is told', [await told(program, member, 'x', 'page-state 9 1/1 1=70000'), (await marks()).length, member.alarms.told()],
    [[null], 2, ['a report tells of a drawing of ours that we did not make']]);
  check('we count on from what was kept', (await drawOn(member, PAGE, 'line 0 0 1 1 *')).seq, 65_537);
}

async function testRoom(program) {
  const member = await quietOf(program);
  check('strangers have their share of the cells', (await told(program, member, 'x', ...drawings(7, 1, 17))).slice(-2), [null, 'over the share of strangers']);
  check('which people hear of', [member.drawn.total, member.board.strange.size, member.alarms.told()], [16, 16, ['strangers have their share of the board: drawings of member 7 are not kept']]);
  await meet(program, member, 7, 'x');
  check('who answers is none, nor what he gave', [member.board.strange.size, (await member.board.record.lines()).filter((line) => line.startsWith('datagram ')).length], [0, 16]);
  await told(program, member, 'x', ...drawings(7, 17, 969));
  check('a full board takes no drawing, and a delete alone', [member.drawn.total, await told(program, member, 'x', ...drawings(7, 970, 970), 'draw 7 1/1 971 5 delete 7 1')], [969, ['the board is full', null]]);
  const fault = (operation) => drawOn(member, '0/0', operation).then(() => 'none', ({ message }) => message);
  check('nor do we draw', [await fault('line 0 0 1 1 *'), await fault('delete 7 2')], ['full', 'none']);
  check('and people hear of it', member.alarms.told().slice(-1), ['the board is full: drawings of member 7 are not kept']);
  await reportOf(member);
  check('and with the next report of how full it is', member.alarms.told().slice(-1), ['the board is full: 971 of 1000 cells; deletes and restores alone have room']);
  const sealed = await quietOf(program, { strangers: 0 });
  check('under a key a stranger has no share, and nobody is warned of newcomers', [await told(program, sealed, 'x', ...drawings(7, 1, 1)), sealed.alarms.told()], [['over the share of strangers'], []]);
}

/** Until somebody turns, the page in view is the first that is drawn on, but for the one of names. */
async function testPageInView(program) {
  const member = await quietOf(program), after = (page, seq) => {
    member.hold(drawopOf(`draw 8 ${page} ${seq} 10 line 0 1 4 1 *`));
    return member.page;
  };
  const first = member.page;
  check('names are on no page to look at', after('0/0', 1), first);
  check('the first', after('8/2', 1), '8/2');
  check('no other afterwards', after('8/3', 1), '8/2');
  member.turnTo('7/4');
  check('nor from the one that somebody has turned to', after('8/3', 2), '7/4');
}

/** Nobody moves our time, and what is drawn ahead of it is taken of members alone, a day at most. */
async function testTime(program) {
  const member = await quietOf(program), ahead = (source, seq, seconds) => drawings(source, seq, seq, (Date.now() + seconds * 1_000) * 1_000)[0];
  await meet(program, member, 9, 'x');
  check('members that draw ahead are believed', await told(program, member, 'x', ahead(8, 1, 86_000), ahead(9, 1, 86_000)), [null, null]);
  check('not by over a day', await told(program, member, 'x', ahead(9, 2, 86_460)), ['ahead of the clock']);
  check('no stranger by two minutes', await told(program, member, 'z', ahead(7, 1, 120), ahead(7, 1, 30)), ['ahead of the clock', null]);
  const { seq } = await drawOn(member, '5/1', 'line 0 0 1 1 *');
  check('our time is ours', Math.abs(member.drawn.find(`1 5/1 ${seq}`).time - Date.now() * 1_000) < SECOND, true);
  await drawOn(member, PAGE, 'line 0 0 1 1 *');
  check('and what we draw lies above theirs', (await viewOf(member.board)).at(-1).source, 1);
}

/** If the network keeps names, nobody speaks under a number of another, or under ours. */
async function testNames(program) {
  const member = await quietOf(program, { here: 'anna' }), [bob, eve] = ['bob', 'eve'].map((name) => ({ place: `wb/${name}`, owner: name }));
  const [, , moment] = (await reportOf(member)).split(' '), refused = 'under the number of another';
  check('whoever claims a number does not own it', await toldBy(program, member, eve, 'session-message 2 4 1/1'), [null]);
  check('it is his who answers first under it', await toldBy(program, member, bob, `session-message 2 5 1/1 1@${moment}+0`), [null]);
  const forged = ['session-message 2 6 1/1', `session-message 2 7 1/1 1@${moment}+0`, 'page-state 2 1/1 2=900', 'request 2 1 1/1 1', 'ask-pages 2', `session-message 1 77 1/1 1@${moment}+0`, 'page-state 1 1/1 1=9'];
  check('another name does not speak under it, or under ours', await toldBy(program, member, eve, ...forged), forged.map(() => refused));
  check('nobody takes that for a member who has our number', [member.judging.hasTwin, (await drawOn(member, PAGE, 'line 0 0 1 1 *')).seq], [false, 1]);
  check('people hear of it', member.alarms.told(), [2, 1].map((number) => `somebody else speaks under the number of member ${number}: that is not heeded`));
  check('he goes on under his number', await toldBy(program, member, bob, `session-message 2 8 1/1 1@${moment}+0`), [null]);
  check('what he drew may come of anybody', await toldBy(program, member, eve, ...drawings(2, 1, 1), `session-message 3 5 1/1 1@${moment}+0`, ...drawings(2, 2, 2)), [null, null, null]);
}

/** Who answered under a number before a start owns it after that, also if another answers first: the record names him, by a number that he has at each start. */
async function testOwners(program) {
  const record = new Record(null, 'here', 1), network = { here: 'anna' }, member = await quietOf(program, network, record);
  const [bob, eve] = ['bob', 'eve'].map((name) => ({ place: `wb/${name}`, owner: name })), [, , moment] = (await reportOf(member)).split(' ');
  check('he answers, and once more', await toldBy(program, member, bob, ...[5, 6].map((sent) => `session-message 2 ${sent} 1/1 1@${moment}+0`)), [null, null]);
  const owners = (await record.lines()).filter((line) => line.startsWith('owner '));
  check('that is recorded once', owners.map((line) => line.replace(/ \d+@/, ' ')), [`owner 2 ${numberOf('bob')}`]);
  const point = (await record.lines()).find((line) => line.startsWith('# names '));
  takePoint(['# names 7']);
  check('a start of another record has other numbers', owners[0].endsWith(`@${numberOf('bob')}`), false);
  const again = await quietOf(program, network, record), [, , later] = (await reportOf(again)).split(' ');
  check('and one of this record the same', [pointLine(), owners[0].endsWith(`@${numberOf('bob')}`)], [point, true]);
  const answers = [5, 6].map((sent) => `session-message 2 ${sent} 1/1 1@${later}+0`);
  check('another who answers first does not speak under it', await toldBy(program, again, eve, ...answers), answers.map(() => 'under the number of another'));
  check('he does', await toldBy(program, again, bob, ...answers), [null, null]);
  const next = new Record(null, 'here', 3);
  await again.board.renumber(3, next);
  check('so it is under another number of ours', (await next.lines()).filter((line) => /^(?:owner|# names) /.test(line)), [point, ...owners]);
  check('a record that is saved has no owners', /owner|names/.test((await again.people.record()).text), false);
}

// ---- a session

/** A member that loses a third of what comes, by a network of this process. */
async function memberOf(program, network, me, record, mayHaveDrawn = false, place = me, more = {}) {
  const inbox = new Inbox(), told = {};
  inbox.worse = { lose: 0.33, delay: 0, twice: 0, mix: false };
  const origin = { place: `wb/${place}`, owner: null };
  const transport = { where: 'here', state: '', here: null, strangers: null, goneBy: () => origin, end: () => network.delete(place),
    send: (bytes) => { for (const [other, take] of network) if (other !== place) take(bytes, origin); } };
  const member = new Member(program, record, me, inbox, transport, { notice: '', teach: false, start: { ...START, cells: 1_000, mayHaveDrawn }, ...more }, (name, news) => { told[name === 'change' ? 'board' : name] = name === 'change' ? changed(told.board, news) : news; });
  network.set(place, (bytes, from) => member.take(bytes, from));
  await member.open();
  Object.assign(member, { told, running: member.run() });
  return member;
}

/** Whether something comes to be so. */
async function comes(isSo, seconds = 60) {
  for (const end = performance.now() + seconds * 1_000; performance.now() < end && !isSo();) await new Promise((go) => { setTimeout(go, 100); });
  return isSo();
}

/** Whether the board of a member comes to be what its host shows. Changes are put in as the board of a page does. */
async function showsAll({ told, people, telling }) {
  const wholes = [], isSo = () => wholes.some((whole) => JSON.stringify(whole) === JSON.stringify(told.board));
  for (let i = 0; i < 100 && !isSo(); i += 1) wholes.splice(0, 1, await people.call(() => telling.boardOf(PAGE)));
  return isSo();
}

/** What a board has after a change. */
function changed(board, { names, added, hidden, rows, height }) {
  const isGone = ({ source, seq }) => names.some(([one, other]) => one === source && other === seq), drawops = board.drawops.filter((drawop) => !isGone(drawop));
  for (const [at, drawop] of added) drawops.splice(at, 0, drawop);
  return { ...board, drawops, hidden: [...board.hidden.filter((drawop) => !isGone(drawop)), ...hidden], rows: Array.from({ length: height }, (_, y) => rows[y] ?? board.rows[y]) };
}

async function testSession(program) {
  const network = new Map(), members = [];
  for (const me of [11, 12, 13]) members.push(await memberOf(program, network, me, new Record(null, 'here', me)));
  const answers = await Promise.all(members.flatMap((member) => Array.from({ length: 8 }, (_, i) => member.people.draw(PAGE, `line ${i} ${member.me - 11} 9 9 ${'abc'[member.me - 11]}`))));
  check('each has its name', new Set(answers.map(({ source, seq }) => `${source} ${seq}`)).size, 24);
  const all = () => members.map((member) => member.drawn.count(PAGE)), isWhole = () => members.every((member) => member.drawn.count(PAGE) === 24 && member.told.board);
  check('all have all, though a third is lost', await comes(isWhole) || all(), true);
  check('nothing is told to be missing', members.map(({ telling, drawn }) => telling.reported.missing(PAGE, drawn)), [0, 0, 0]);
  check('what was told piece by piece is the whole that the host shows', await Promise.all(members.map(showsAll)), [true, true, true]);
  check('each knows the delays to the others', await comes(() => members.every((member) => [...member.judging.heard.others.values()].filter(({ delay }) => delay !== null).length === 2)), true);
  check('something was asked for, and repaired', members.reduce((sum, { wire }) => sum + wire.counts.requests, 0) > 0, true);
  const [one] = members, fault = await one.people.draw(PAGE, 'line 0 0 4 5000 x').catch((it) => it.message);
  check('what is no drawing the host refuses, by the word as people wrote it', [fault, await one.people.draw(PAGE, 'look 1').catch((it) => it.message)], ['word 5: number', 'unknown']);
  await one.end();
  await one.running;
  const again = await memberOf(program, network, 11, one.board.record, true);
  check('a start goes on from the record', [again.drawn.total, again.isReady], [24, false]);
  const late = await again.people.draw(PAGE, 'text 0 0 "again"');
  check('what is drawn while it listens waits, and has the next number', late, { source: 11, seq: 9 });
  members[0] = again;
  check('it is with all others', await comes(() => members.every((member) => member.drawn.count(PAGE) === 25)), true);
  for (const member of members) await member.end();
}

/** Of two members alone none has a share, and a stranger beside them has one, which is the same after a start. */
async function testStrangers(program) {
  const network = new Map(), [one, other] = [await memberOf(program, network, 11, new Record(null, 'here', 11)), await memberOf(program, network, 12, new Record(null, 'here', 12))];
  const stranger = { place: 'wb/stranger', owner: null }, words = Array.from({ length: 100 }, (_, i) => `draw 900 1/1 ${i + 1} 5 line 0 0 4 0 x`);
  const forged = await bytesOf(program, ...words);
  await Promise.all(Array.from({ length: 90 }, (_, i) => other.people.draw(PAGE, `line ${i} 0 9 9 o`)));
  const losing = [one, other].map(({ inbox }) => [inbox, inbox.worse]); // nothing of the stranger's is lost: what came after a hole would be dropped
  for (const [inbox, worse] of losing) inbox.worse = { ...worse, lose: 0 };
  for (const bytes of forged) for (const take of network.values()) take(bytes, stranger);
  for (const [inbox, worse] of losing) inbox.worse = worse;
  const of = (member, source) => member.drawn.all().filter((drawop) => drawop.source === source).length;
  check('a member holds all that another drew, above every share', await comes(() => of(one, 12) === 90) || of(one, 12), true);
  check('and of a stranger no more than his share, beside what the other repaired', [await comes(() => one.board.strange.size > 0), of(one, 900) <= 32 || of(one, 900), one.board.strange.size <= 62], [true, true, true]);
  await one.end();
  await one.running;
  const before = [...one.board.strange].sort(); // until then more may come
  const again = await memberOf(program, network, 11, one.board.record);
  check('a start knows what strangers gave', [...again.board.strange].sort(), before);
  for (const member of [again, other]) await member.end();
}

/** The last drawing before a pause is lost, and is there soon: its member sends it again, after its record has it, and alone it does not. */
async function testTail(program) {
  const network = new Map(), record = new Record(null, 'here', 11), one = await memberOf(program, network, 11, record), sent = [];
  const send = one.transport.send, isKept = ({ words }) => record.lines().then((lines) => lines.includes(`say ${words}`));
  one.transport.send = (bytes) => {
    const datagram = readDatagram(bytes);
    if (datagram?.kind === 'draw') sent.push([datagram.seq, isKept(datagram)]);
    send(bytes);
  };
  await one.people.draw(PAGE, 'line 0 0 4 0 a');
  await comes(() => one.judging.tails.due() === null, 5);
  check('alone', sent.map(([seq]) => seq), [1]);
  const other = await memberOf(program, network, 12, new Record(null, 'here', 12)), { worse } = other.inbox;
  await comes(() => other.drawn.total === 1 && one.judging.present().length === 1);
  other.inbox.worse = { ...worse, lose: 1 };
  await one.people.draw(PAGE, 'line 0 1 4 1 a');
  other.inbox.worse = { ...worse, lose: 0 };
  check('the other has it soon', await comes(() => other.drawn.total === 2, 10), true);
  await comes(() => one.judging.tails.due() === null, 5);
  check('it goes twice more at most, and the record has it before', [sent.filter(([seq]) => seq === 2).length <= 3, await Promise.all(sent.map(([, kept]) => kept))], [true, sent.map(() => true)]);
  for (const member of [one, other]) await member.end();
}

/** Two members of one number see it, and do not draw. A report of an earlier start shows no twin. */
async function testTwins(program) {
  const network = new Map(), heard = [], twins = [];
  network.set('ear', (bytes) => heard.push(bytes));
  for (const place of ['a', 'b']) twins.push(await memberOf(program, network, 11, new Record(null, 'here', 11), false, place));
  check('two of one number see it', await comes(() => twins.every(({ judging }) => judging.hasTwin)), true);
  check('and do not draw', await twins[0].people.draw(PAGE, 'line 0 0 4 0 x').catch((fault) => fault.message), 'another member has our number: take a new one');
  for (const member of twins) await member.end();
  await Promise.all(twins.map(({ running }) => running));
  const alone = await memberOf(program, network, 11, new Record(null, 'here', 11));
  for (const bytes of heard) alone.take(bytes, { place: 'wb/eve', owner: null });
  await comes(() => alone.inbox.waiting.length + alone.inbox.strange.length === 0);
  check('what they said does not stop who comes later', [alone.judging.hasTwin, (await alone.people.draw(PAGE, 'line 0 0 4 0 x')).seq], [false, 1]);
  await alone.end();
}

/** Somebody who hears us speaks under our number and echoes us. We draw on by a new one with all that is held, eight times in an hour. */
async function testForgedTwin(program) {
  const network = new Map(), heard = [], begun = [], eve = { place: 'wb/eve', owner: null };
  network.set('ear', (bytes) => heard.push(...[readDatagram(bytes)].filter(Boolean)));
  const fresh = async () => { const me = 20 + begun.length; return { me, record: new Record(null, 'here', me) }; };
  const member = await memberOf(program, network, 11, new Record(null, 'here', 11), false, 'a', { fresh, begun: () => begun.push(member.me) });
  const speakFor = async (me) => {
    heard.length = 0;
    const isOurs = ({ kind, speaker }) => kind === 'session-message' && speaker === me;
    await comes(() => heard.some(isOurs), 20);
    const [, , sent] = heard.findLast(isOurs).words.split(' '), [forged] = await bytesOf(program, `session-message ${me} 9 1/1 ${me}@${sent}+1`);
    for (let i = 0; i < 9; i += 1) member.take(forged, eve);
  };
  await member.people.draw(PAGE, 'line 0 0 4 0 x');
  await speakFor(11);
  check('a new number', [await comes(() => member.me === 20), begun, member.judging.hasTwin], [true, [20], false]);
  check('by which one draws', await member.people.draw(PAGE, 'line 0 1 4 1 x'), { source: 20, seq: 1 });
  check('with all that is held', [(await viewOf(member.board)).map(({ source }) => source), member.alarms.told()], [[11, 20], ['somebody else spoke under our number 11: we draw on as member 20']]);
  member.parted = Array(8).fill(performance.now());
  await speakFor(20);
  check('but not so often', [await comes(() => member.judging.hasTwin), await member.people.draw(PAGE, 'line 0 2 4 2 x').catch(({ message }) => message), member.me], [true, 'another member has our number: take a new one', 20]);
  check('until people want it', [await member.people.call(() => member.takeNumber()), (await member.people.draw(PAGE, 'line 0 2 4 2 x')).source], [{ me: 21 }, 21]);
  await member.end();
}

const program = new Program(await WebAssembly.compile(fs.readFileSync(file)), false);
for (const each of [testOld, testLines, testBegun, testMarks, testClock, testDraw, testShowing, testNoRoom, testOneSync, testEnds, testRefused, testStarts, testBefore, testOwnMarks, testRoom, testPageInView, testTime, testNames, testOwners, testSession, testStrangers, testTail, testTwins, testForgedTwin]) test(each.name.slice('test'.length), () => each(program));
