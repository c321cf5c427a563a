// Tests what a member does by the words of its host, which judges: what it tells people, sends and keeps. In the place of a host is one that gives the
// answers of a test; what a host decides tests/judging and tests/host say.
import { Alarms } from '../../web/member/alarms.js';
import { Board } from '../../web/member/board.js';
import { FEW, NEAR, SEVERAL } from '../../web/member/constants.js';
import { hex, readDatagram, unhex } from '../../web/member/datagram.js';
import { Digests } from '../../web/member/digests.js';
import { Drawn } from '../../web/member/drawn.js';
import { Answer, Block } from '../../web/member/host.js';
import { Judging } from '../../web/member/judging.js';
import { numberOf, wordOf } from '../../web/member/origins.js';
import { People } from '../../web/member/people.js';
import { Record } from '../../web/member/record.js';
import { IN_VAIN, MOST_REPORTED, Reported } from '../../web/member/reported.js';
import { Telling } from '../../web/member/telling.js';
import { drawopOf } from '../../web/member/views.js';
import { Wire } from '../../web/member/wire.js';
import { check } from '../check.mjs';
import { datagramOf, drawOn } from './worded.mjs';

const SECOND = 1_000_000, [X, Y, Z] = ['x', 'y', 'z'].map((place) => ({ place, owner: null }));

// ---- what is missing

export function testReported() {
  const reported = new Reported(), drawn = new Drawn();
  for (const seq of [1, 4]) drawn.add(drawopOf(drawing(7, seq)));
  for (const [source, page, seq] of [[7, '7/1', 3], [7, '7/1', 9], [8, '7/1', 2], [8, '7/2', 2]]) reported.tell({ source, page, seq });
  check('a number of a gap counts once', reported.missing('7/1', drawn), 4);
  reported.come({ source: 7, page: '7/1', seq: 9 });
  check('what came is missing no more', [reported.missing('7/1', drawn), reported.missing('7/2', drawn)], [3, 1]);
  check('pages of which nothing is held are told', reported.pages().includes('7/2'), true);
  for (let number = 0; number < 5_000; number += 1) reported.tell({ source: 1, page: `9/${number}`, seq: 5 });
  check('what is told is bounded', reported.names.size, MOST_REPORTED);
}

// ---- judging

/** What the lines of a block say, as a call by bytes gives it. */
function answerOf(lines, close) {
  const block = new Block(lines, close), [dropped, became, warning] = ['dropped', 'became', 'warn'].map((word) => block.said(word)[0] ?? null);
  return Object.assign(new Answer(), { dropped, records: block.said('record'), drew: block.said('drew'), send: block.sent(),
    became: became === 'left' ? 'full' : became, warning, due: block.due, refused: block.fault });
}

/** In the place of a host: it answers all lines of one kind alike, and notes them. Calls by bytes are noted as the lines of the same meaning. */
class Answering {
  constructor() {
    this.said = { came: ['drew 7 1 7 1', 'send 00ff', 'became new'] };
    this.close = 'ok never';
    this.told = [];
  }

  ask(line) {
    this.told.push(line);
    return new Block(this.said[line.split(' ', 1)[0]] ?? [], 'ok never');
  }

  answer(kind, ...words) {
    this.told.push([kind, ...words].join(' '));
    return answerOf(this.said[kind] ?? [], kind === 'came' ? this.close : 'ok never');
  }

  cameFrom(now, { place, owner }, bytes) {
    return this.answer('came', now, owner === null ? place : `${place}@${owner}`, hex(bytes));
  }

  wall(now, time) {
    return this.answer('wall', now, time);
  }

  gone(now, { place }) {
    return this.answer('gone', now, place);
  }

  members(...members) {
    this.said.members = [`members ${members.length}`, ...members.map((each) => `member ${each}`)];
  }
}

/** A member whose host gives the answers of a test. Its clock stands. */
function memberOf({ isReady = true, cells = 1_000, strange = [] } = {}) {
  const host = new Answering(), record = new Record(null, 'here', 1), sent = [], ticks = [];
  const member = { me: 1, page: '7/1', isReady, drawn: new Drawn(), alarms: new Alarms(), wire: new Wire(), host, record, sent, ticks, at: 0 };
  const board = new Board(null, record, { rate: 4_000, many: NEAR }, { here: null, strangers: null }, (drawop) => member.hold(drawop));
  Object.assign(board, { host, me: 1, cells, readyAt: isReady ? 0 : SECOND, strange: new Set(strange), wall: Date.now() * 1_000, now: () => member.at });
  Object.assign(member, { board, hold: (drawop) => member.drawn.add(drawop), obey: (answer) => answer, wake: () => {}, mayPart: () => false, begin: async () => { member.isReady = true; },
    tick: async () => { ticks.push(member.at); }, send: (bytes) => { sent.push(hex(bytes)); return readDatagram(bytes); } });
  member.digests = new Digests(member);
  member.telling = new Telling(member, (name, news) => { member[name] = news; });
  member.people = new People(member);
  member.judging = new Judging(member);
  member.says = (...lines) => { host.said.came = lines; };
  return member;
}

/** Why a datagram changes nothing; of what the host sends the digits are noted. */
async function heed(member, words, origin = X) {
  const { sent, refused } = await member.judging.heed(datagramOf(words), new TextEncoder().encode(words), origin);
  member.sent.push(...sent.map(hex));
  return refused;
}

/** A member answers our report from there. */
async function meet(member, number = 9, origin = X, more = '') {
  member.at = Math.max(member.at, 25);
  member.board.moment = member.at;
  member.says();
  member.host.members(`${number} ${wordOf(origin)} ${member.at} ${member.at}`);
  return heed(member, `session-message ${number} 77 7/1${more} 1@5+10`, origin);
}

const drawing = (source, seq, time = 5) => `draw ${source} 7/1 ${seq} ${time} line 0 0 1 1 *`;
const missing = ({ telling, drawn }) => telling.reported.missing('7/1', drawn);
const NEW = ['drew 7 1 7 1', 'send 00ff', 'became new'];
const REPORT = '5742010200000018000000010000000000000005000000070000000100000000'; // session-message 1 5 7/1

/** Where a datagram comes from is a number to the host: none that somebody could choose, and another for each name. */
function testOrigins() {
  const names = ['', 'a', 'aa', 'aaa', 'wb/board/ann', 'wb/board/bob', '0123456789abcdef', 'ann/0123456789abcdef', '\u{10ffff}'];
  check('each name has its own', new Set(names.map((name) => numberOf(name))).size, names.length);
  check('and no other later', names.map((name) => String(numberOf(name))), names.map((name) => String(numberOf(name))));
  check('below 2^61, and hardly ever a small one', names.slice(2).map((name) => numberOf(name) > 2n ** 30n && numberOf(name) < 2n ** 61n), names.slice(2).map(() => true));
  check('an origin without an owner, and with one', [X, { place: 'y', owner: 'x' }].map(wordOf), [`${numberOf('x')}`, `${numberOf('y')}@${numberOf('x')}`]);
}

/** People wait for what members tell of: for no hole below what no member gave, and for nothing that was asked for in vain. */
async function testAwaited() {
  const member = memberOf(), { telling, judging, board } = member;
  Object.assign(member, { inbox: { dropped: 0, bad: 0 }, transport: { state: '' } });
  const awaits = () => { telling.tellHealth(); return member.health.missing; };
  const given = (source, seq, isStrange = false) => {
    member.drawn.add(drawopOf(drawing(source, seq)));
    if (isStrange) board.strange.add(`${source} 7/1 ${seq}`);
    telling.noticeFate({ source, page: '7/1', seq }, 'new');
  };
  const ask = () => judging.goes(datagramOf('request 1 7 7/1 2'), 28);
  given(900, 2 ** 32 - 1, true);
  check('nothing is missing below a drawing of a stranger', awaits(), 0);
  await meet(member, 9, X, ' 900=4294967295');
  check('nor if a member has it too', awaits(), 0);
  for (const seq of [1, 5]) given(7, seq);
  check('three are below what a member gave', awaits(), 3);
  await meet(member, 9, X, ' 7=9');
  given(7, 1_000, true);
  check('and one is told by its mark, also beside one of a stranger of that number', awaits(), 4);
  for (let asked = 0; asked < 2 * IN_VAIN; asked += 1) ask();
  check('while nobody is heard, it is waited for', awaits(), 4);
  for (let asked = 1; asked < IN_VAIN; asked += 1) {
    check(`asked ${asked} times in vain`, awaits(), 4);
    await meet(member, 9, X, ' 7=9');
    ask();
  }
  check('what nobody has is not waited for', awaits(), 0);
  given(8, 3);
  check('what another has is', awaits(), 2);
  given(7, 900, true);
  check('no drawing of a stranger changes that', awaits(), 2);
  given(7, 2);
  check('one that comes of a member does', awaits(), 5);
  judging.goes(datagramOf('request 1 8 7/1 1'), 28);
  for (let asked = 0; asked < IN_VAIN; asked += 1) {
    await meet(member, 9, X, ' 7=9');
    ask();
  }
  check('nor is one waited for whose turn to be asked for has not come again', awaits(), 0);
  for (let page = 0; page < 2 * MOST_REPORTED; page += 1) telling.reported.ask(`7 9/${page} 1`);
  check('what is remembered is bounded', [telling.reported.asked.size, telling.reported.since.size], [MOST_REPORTED, MOST_REPORTED]);
}

async function testReports() {
  const member = memberOf();
  member.at = -SECOND;
  member.says();
  member.host.members(`9 ${wordOf(X)} - 0`);
  await heed(member, 'session-message 9 77 7/1 7=3');
  check('what a stranger reports is not missing', missing(member), 0);
  await meet(member, 9, X, ' 7=3');
  check('and what a member reports is', [missing(member), [...member.telling.reported.names.keys()]], [1, ['7 7/1 3']]);
  member.says(...NEW);
  for (const seq of [2, 3]) check('what comes is handed in', await heed(member, drawing(7, seq)), null);
  check('then it is forgotten, and what is below is missing', [missing(member), member.telling.reported.names.size], [1, 0]);
  check('what the host sends goes out', member.sent, ['00ff', '00ff']);
  member.says('dropped own');
  check('what comes under our number is not handed in', await heed(member, 'request 1 7 7/1 2'), 'under our number');
  member.says();
  await heed(member, 'page-state 8 7/1 7=3', Y);
  check('who sends from there its own reports alone tell', [...member.wire.places], [['x', 9]]);
  await heed(member, 'page-state 9 7/1 8=1');
  check('a page state reports, too', missing(member), 2);
  const came = member.host.told.filter((line) => line.startsWith('came ')).map((line) => line.split(' '));
  check('the host hears from where each comes, and its bytes', [came.map((line) => line[2]), new TextDecoder().decode(unhex(came[2][3]))], [[...Array(5).fill(wordOf(X)), wordOf(Y), wordOf(X)], drawing(7, 2)]);
  await heed(member, 'page-state 9 7/1 1=9');
  check('what a report tells of our own number is not missing', missing(member), 2);
  member.says('dropped datagram');
  check('also what is no datagram', await member.judging.heed(null, new Uint8Array([87, 66]), X), { sent: [], refused: 'no datagram' });
}

/** People get in words what the host warns of, and why it drops something. */
async function testWarnings() {
  const member = memberOf();
  member.says('dropped speaks', 'warn speaks 9');
  check('why', await heed(member, 'request 9 7 7/1 2'), 'under the number of another');
  for (const what of ['mark', 'full', 'share']) {
    member.says(`dropped ${what}`, `warn ${what}`);
    await heed(member, drawing(7, 1), Z);
  }
  check('each has its words', member.alarms.told(), ['somebody else speaks under the number of member 9: that is not heeded', 'a report tells of a drawing of ours that we did not make',
    'the board is full: drawings of member 7 are not kept', 'strangers have their share of the board: drawings of member 7 are not kept']);
  check('nobody has our number', member.judging.hasTwin, false);
  member.says('dropped own', 'warn twin');
  await heed(member, 'session-message 1 77 7/1 1@5+10');
  check('a twin lasts, and nothing is drawn', [member.judging.hasTwin, await drawOn(member, '7/1', 'line 0 0 1 1 *').catch(({ message }) => message)], [true, 'another member has our number: take a new one']);
}

/** A member's copy of what is held is dropped, since it would hush us. If it differs from what is held, people are warned all the same. */
async function testClash() {
  const member = memberOf();
  await meet(member);
  for (const seq of [1, 2, 3]) member.drawn.add(drawopOf(drawing(1, seq)));
  member.says('dropped again');
  check('a stranger repeats what is held', await heed(member, drawing(1, 2, 6), Z), 'it would hush us');
  check('a member\u2019s copy of what is held', [await heed(member, drawing(1, 2)), member.alarms.told()], ['it would hush us', []]);
  check('its drawing of another kind under that name', [await heed(member, drawing(1, 2, 6)), member.alarms.told()], ['it would hush us', ['two members draw with number 1: what they drew differs from member to member']]);
}

/** What the host refuses, or does not take, changes nothing here. */
async function testRefused() {
  const member = memberOf();
  await meet(member);
  member.host.close = 'refused endless';
  check('why a report is refused', await heed(member, 'session-message 9 78 7/1 7=3'), 'endless');
  check('what it told of is not missing', missing(member), 0);
  check('why a drawop is refused', await heed(member, drawing(7, 1), Z), 'endless');
  member.host.close = 'ok never';
  member.says('became clash');
  check('one that clashes', [await heed(member, drawing(7, 1), Z), member.alarms.told()], [null, ['two members draw with number 7: what they drew differs from member to member']]);
  member.says('became left');
  check('one without room', [await heed(member, drawing(7, 1), Z), member.alarms.told().at(-1)], [null, 'the board is full: new drawops are not kept']);
  check('none of them is kept', [member.board.strange.size, member.drawn.total, await member.record.lines()], [0, 0, []]);
}

/** The record has what the host says, in its order. What no member gave stands there in words, until a member turns out to be who gave it. */
async function testRecord() {
  const member = memberOf(), { board, drawn } = member, given = '574201010000002200000007000000070000000100000001000000000000000501000000000001000127';
  for (const [source, origin] of [[7, Y], [6, Z]]) {
    member.says('record tick 25', `record ${drawing(source, 1)}`, `drew 7 1 ${source} 1`, 'became new');
    await heed(member, drawing(source, 1), origin);
  }
  check('what strangers gave', [await member.record.lines(), [...board.strange]], [['tick 25', drawing(7, 1), 'tick 25', drawing(6, 1)], ['7 7/1 1', '6 7/1 1']]);
  check('is a page of strangers, and would not be if one were ours', [1, 6].map((me) => [...drawn.strangePages(me, board.strange)]), [['7/1'], []]);
  member.says('record tick 30', `record datagram ${given}`);
  await heed(member, 'session-message 7 77 7/1 1@5+10', Y);
  check('is a member\u2019s once he answers, and no other\u2019s', [(await member.record.lines()).slice(4), [...board.strange]], [['tick 30', `datagram ${given}`], ['6 7/1 1']]);
  check('and so is the page', [...drawn.strangePages(1, board.strange)], []);
}

/** Who is heard the host says; how far away each is, its answer says. */
async function testHeard() {
  const member = memberOf(), { judging, host, board } = member, present = () => judging.present().map(([number, { delay }]) => [number, delay]), asked = () => host.told.filter((line) => line === 'members').length;
  await meet(member);
  check('a member', judging.present(), [[9, { origin: wordOf(X), at: 25, answered: 25, delay: 5 }]]);
  await judging.heard.look();
  check('nothing came in since, so nobody is asked', [present(), asked()], [[[9, 5]], 1]);
  host.members(`9 ${wordOf(X)} 25 26`, `8 ${wordOf(Z)} - 26`);
  member.at = 26;
  await heed(member, 'session-message 8 77 7/1', Z);
  await heed(member, 'session-message 9 78 7/1 1@20+0'); // an echo by which the host says that nobody answered
  check('of one that was heard the host is asked seldom', [present(), asked()], [[[9, 5]], 1]);
  member.at += 100;
  await judging.heard.look();
  check('and then again: no delay to a stranger is known, and to a member that of its answer', present(), [[9, 5], [8, null]]);
  check('from where members speak', [X, Z].map((origin) => judging.heard.isMember(origin)), [true, false]);
  board.begunAt = member.at = SECOND;
  host.members(`7 ${wordOf(Z)} - ${SECOND}`);
  await heed(member, 'session-message 7 77 7/1', Z);
  check('a new host has heard one, and two are remembered', present().map(([number]) => number).sort(), [7, 8, 9]);
  check('members are shown for a minute', [SECOND, 26 + 60 * SECOND].map((at) => { member.at = at; return present().length; }), [3, 1]);
  member.at = SECOND + 192 * SECOND;
  await heed(member, 'session-message 7 77 7/1', Z);
  check('they are remembered for so long', judging.heard.within(400 * SECOND, member.at).map(([number]) => number), [7]);
  for (const [others, wanted] of [[[7, 5], [5, 7]], [[7], [7]]]) {
    host.members(...others.map((number) => `${number} ${wordOf(Z)} - ${member.at}`));
    member.at += 1_000;
    await heed(member, 'session-message 7 77 7/1', Z);
    check('whom this host forgets is forgotten', present().map(([number]) => number).sort(), wanted);
  }
  await judging.leave(Z);
  check('who is gone is gone, also to the host', [judging.heard.within(400 * SECOND, member.at), host.told.at(-1)], [[], `gone ${member.at} ${wordOf(Z)}`]);
}

/** No delay to a member that moves is known until we hear its answer from there, and one that leaves is a member no more. */
async function testMoves() {
  const member = memberOf(), { judging, host } = member, present = () => judging.present().map(([number, { delay }]) => [number, delay]);
  await meet(member);
  member.at = 1_000;
  host.members(`9 ${wordOf(Y)} 999 999`);
  await heed(member, 'session-message 8 77 7/1', Z);
  check('it has moved', [present(), [X, Y].map((origin) => judging.heard.isMember(origin))], [[[9, null]], [false, true]]);
  await judging.leave(Y);
  check('it has left', [present(), judging.heard.isMember(Y)], [[], false]);
}

/** Nobody is nearer than here, though a clock gains. */
async function testNear() {
  const member = memberOf(), { judging, host, board } = member;
  board.moment = member.at = 25;
  member.says();
  host.members(`9 ${wordOf(X)} 25 25`);
  await heed(member, 'session-message 9 77 7/1 1@5+25', X);
  check('it is as near as can be', judging.present().map(([, { delay }]) => delay), [0]);
}

/** The member tells its host other constants in the next turn, when a fourth other is heard, and when all are gone. */
async function testFollowed() {
  const member = memberOf(), { judging, board, host } = member, tunings = () => host.told.filter((line) => line.startsWith('tuning'));
  const turn = async () => { for (const [, act] of judging.plan()) await act(); };
  const hears = async (...numbers) => {
    member.says();
    host.members(...numbers.map((number) => `${number} p${number} - ${member.at}`));
    member.at += 1_000;
    await heed(member, `session-message ${numbers.at(-1)} 77 7/1`, X);
  };
  await hears(2, 3, 4);
  await turn();
  check('three others change nothing', [board.tuning, tunings(), judging.plan().length], [FEW, [], 0]);
  await hears(2, 3, 4, 5);
  check('a fourth does', judging.plan().length, 1);
  await turn();
  check('once', [board.tuning, tunings(), judging.plan().length], [SEVERAL, ['tuning 2 4 1 3'], 0]);
  member.at = 70 * SECOND;
  judging.goes(readDatagram(unhex(REPORT)), 32);
  await turn();
  check('when they are silent for a minute, with the next report', [board.tuning, tunings().at(-1)], [FEW, 'tuning 1 1 1 1']);
}

/** A member is gone after a minute, or, where many speak seldom, after three reports. */
async function testPatience() {
  const member = memberOf(), { judging } = member, report = { kind: 'session-message' };
  member.says();
  member.host.members(...Array.from({ length: 49 }, (_, i) => `${i + 2} p${i + 2} - 0`));
  await heed(member, 'session-message 2 77 7/1');
  for (const [rate, wanted] of [[4_000, 60], [2_000, 75], [400, 192]]) {
    member.board.options.rate = rate;
    judging.goes(report, 1_000);
    check(`of fifty who have ${rate} bytes a second one is gone after so many seconds`, judging.patience, wanted * SECOND);
  }
}

/** The host gets the time of day if it reckons with another, and with each drawing. */
async function testTime() {
  const member = memberOf(), { board, host, people, judging } = member, ours = '57420101000000220000000100000007000000010000000100000000000000050100000000000100012a';
  member.says();
  check('it is right', board.isWrong(), false);
  await heed(member, 'ask-pages 8');
  member.at = 2 * SECOND;
  check('this clock has gone otherwise', board.isWrong(), true);
  await heed(member, 'ask-pages 8');
  check('then it is told, once', [host.told.map((line) => line.split(' ', 2).join(' ')), board.isWrong()], [['came 0', 'wall 2000000', 'came 2000000'], false]);
  host.said.add = ['record tick 2000000', `record say ${drawing(1, 1)}`, 'drew 7 1 1 1', `send ${ours}`, `send ${ours.replace('00000001', '00000008')}`, 'became new'];
  check('a drawing', [await drawOn(member, '7/1', 'line 0 0 1 1 *'), member.sent, member.drawn.total], [{ source: 1, seq: 1 }, [ours, ours.replace('00000001', '00000008')], 1]);
  check('what the host was told', host.told.slice(-2).map((line) => line.replace(/\d{9,}/, 'WALL')), ['wall 2000000 WALL', 'add 2000000 7/1 line 0 0 1 1 *']);
  check('the drawing is what the record has, and not what is repaired besides', [await member.record.lines(), judging.tails.take(9 * SECOND).map(hex)], [['tick 2000000', `say ${drawing(1, 1)}`], [ours]]);
  host.said.add = ['became left'];
  check('where there is no room', await drawOn(member, '7/1', 'line 0 0 1 1 *').catch(({ message }) => message), 'full');
}

/** How full the board is. */
async function testRoom() {
  const member = memberOf(), told = () => member.alarms.told().at(-1);
  member.drawn.total = 799;
  member.judging.goes({ kind: 'session-message' }, 32);
  check('there is room', told(), undefined);
  member.drawn.total = 800;
  member.judging.goes({ kind: 'session-message' }, 32);
  check('it becomes full', told(), 'the board becomes full: 800 of 1000 cells are taken');
  member.drawn.total = 969;
  member.judging.goes({ kind: 'session-message' }, 32);
  check('it is full', told(), 'the board is full: 969 of 1000 cells; deletes and restores alone have room');
}

/** One cell in 16 is kept: of what people draw, names, titles and the chat alone have room there, and deletes and restores. */
async function testKeptCells() {
  const member = memberOf(), { host, people, drawn } = member, drawings = ['line 0 0 1 1 *', 'frame 0 0 1 1 *', 'text 0 0 "a"'], others = ['delete 1 1', 'restore 1 1'];
  const fates = async (total, page, operations) => {
    const found = [];
    for (const operation of operations) {
      drawn.total = total;
      found.push(await drawOn(member, page, operation).then(() => 'drawn', ({ message }) => message));
    }
    return found;
  };
  host.said.add = [`record say ${drawing(1, 1)}`, 'drew 1 7 1 1', 'became new'];
  check('up to them people draw', await fates(937, '7/1', drawings), ['drawn', 'drawn', 'drawn']);
  check('no more from there on', await fates(938, '7/1', drawings), ['full', 'full', 'full']);
  check('but for deletes and restores', await fates(938, '7/1', others), ['drawn', 'drawn']);
  check('and for names, titles and the chat', await fates(938, '0/0', drawings), ['drawn', 'drawn', 'drawn']);
}

/** Until the member may draw, 1,024 drawings wait. */
async function testWaiting() {
  const member = memberOf({ isReady: false }), { host, people } = member;
  host.said.add = [`record say ${drawing(1, 1)}`, 'drew 1 7 1 1', 'became new'];
  const fates = Array.from({ length: 1_025 }, () => people.draw('7/1', 'line 0 0 1 1 *').then(({ seq }) => seq, ({ message }) => message));
  for (const call of people.calls.splice(0)) await call();
  check('one more is refused at once', [people.draws.length, await fates.pop()], [1_024, 'busy']);
  member.isReady = true;
  await people.drawAll();
  check('then all that waited are drawn', [people.draws.length, [...new Set(await Promise.all(fates))]], [0, [1]]);
}

/** A new page of ours is the first that nobody drew on or told of; one that is empty yet is new enough. */
function testNewPage() {
  const member = memberOf(), { drawn, people, telling } = member;
  for (const page of ['1/1', '1/3', '8/2']) drawn.add(drawopOf(`draw 7 ${page} 1 10 line 0 1 4 1 *`));
  check('the first that is free', people.newPage(), '1/2');
  telling.reported.tell({ source: 8, page: '1/2', seq: 1 });
  check('not one that somebody told of', people.newPage(), '1/4');
  member.page = '1/1';
  check('another than one that is drawn on', people.newPage(), '1/4');
  member.page = '1/9';
  check('one that is empty yet', people.newPage(), '1/9');
}

/** What we drew last goes out again when it is due, unless we heard of it; that we ask for something tells of losses. */
async function testLast() {
  const member = memberOf(), { judging } = member, repeated = [], [one, two] = [1, 2].map((byte) => new Uint8Array([byte]));
  member.repeat = async () => { repeated.push(...judging.tails.take(member.at).map(hex)); };
  await meet(member);
  judging.tails.drew({ page: '7/1', seq: 1 }, one, SECOND);
  const [[moment, act]] = judging.plan();
  member.at = moment;
  await act();
  check('a drawing that nothing follows', [moment, repeated, judging.plan().length], [1.25 * SECOND, ['01'], 1]);
  member.board.moment = moment;
  judging.goes({ kind: 'request', name: '7 7/1 2' }, 28);
  member.at = 2 * SECOND;
  await judging.plan()[0][1]();
  check('goes a last time where something was lost', [repeated, judging.plan()], [['01', '01'], []]);
  for (const [origin, why, words, left] of [[Z, [], 'session-message 8 78 7/1 1=2', 1], [X, ['dropped crowd'], 'session-message 9 78 7/1 1=2', 1], [X, ['dropped again'], 'request 9 1 7/1 2', 0], [X, [], 'session-message 9 78 7/1 1=2', 0]]) {
    judging.tails.drew({ page: '7/1', seq: 2 }, two, 2 * SECOND);
    member.says(...why);
    await heed(member, words, origin);
    check(`what a member told others of is known: ${words}, ${why}`, judging.plan().length, left);
  }
}

/** Pages of members are listed before any of strangers, however many these are. */
async function testPages() {
  const names = Array.from({ length: 1_499 }, (_, i) => `900 0/${i + 1} 1`), member = memberOf({ strange: names }), { drawn, telling, host } = member;
  for (const name of [...names.slice(0, 900), '9 9/2 1', '1 5/1 1']) drawn.add(drawopOf(`draw ${name} 5 line 0 0 1 1 *`));
  telling.reported.tell({ source: 9, page: '6/1', seq: 1 });
  await telling.tellPages();
  check('the page in view, ours, and those of members and of which they tell', [member.pages.page, member.pages.pages.slice(0, 4).map((one) => one.page)], ['7/1', ['5/1', '9/2', '6/1', '7/1']]);
  check('then those of strangers', [member.pages.pages.length, member.pages.pages.at(-1), host.told], [904, { page: '0/900', drawn: 1, last: '5' }, []]);
  for (const name of names) drawn.add(drawopOf(`draw ${name} 5 line 0 0 1 1 *`));
  host.said.list = ['list 1000', '1 5/1 1'.replace('/', ' '), '9 2 1', ...names.slice(501).map((name) => name.split(' ')[1].replace('/', ' ') + ' 1')];
  await telling.tellPages();
  check('of too many the host says which', [host.told, member.pages.pages.length, member.pages.pages[4].page, member.pages.pages.at(-1).page], [['list 1000'], 1_000, '0/502', '0/1497']);
}

/** The health of a page in one phrase: what is missing, for a minute that it has caught up, and whether anybody else is heard. */
async function testHealth() {
  const member = Object.assign(memberOf(), { at: SECOND, inbox: { dropped: 0 }, transport: { state: '' } }), { telling } = member, lost = { source: 7, page: '7/1', seq: 2 };
  const phrase = () => {
    telling.tellHealth();
    return member.health.phrase;
  };
  check('alone', phrase(), 'whole; nobody else is heard');
  telling.reported.tell(lost);
  check('a number is missing', phrase(), '1 missing');
  telling.reported.come(lost);
  check('it has come', phrase(), 'caught up 0 s ago');
  member.at += 59 * SECOND;
  check('that is told for a minute', phrase(), 'caught up 59 s ago');
  member.at += SECOND;
  check('and no longer', phrase(), 'whole; nobody else is heard');
  await meet(member);
  check('beside a member', phrase(), 'whole');
  member.transport.state = 'the broker is gone';
  check('without a network', [phrase(), member.health.carried], ['the broker is gone', false]);
}

/** What sixteen pages show is remembered, as long as the host is the same. */
function testShowings() {
  const { telling, board } = memberOf(), first = telling.showing('7/1'), look = (from, to) => { for (let number = from; number <= to; number += 1) telling.showing(`7/${number}`); };
  look(2, 16);
  check('of sixteen', telling.showing('7/1') === first, true);
  look(17, 32);
  const second = telling.showing('7/1');
  check('of more the one goes that was looked at longest ago', [second === first, telling.showings.size], [false, 16]);
  board.host = new Answering();
  check('of another host nothing', [telling.showing('7/1') === second, telling.showings.size], [false, 1]);
}

/** Of too many who are heard the board gets those first that have answered us. */
async function testMembers() {
  const member = memberOf();
  member.at = 10;
  member.says();
  member.host.members(...Array.from({ length: 600 }, (_, i) => `${i + 2} p${i + 2} - 10`), `900 ${wordOf(X)} 10 10`);
  await heed(member, 'session-message 900 77 7/1 1@2+4');
  member.telling.tellMembers();
  check('by their numbers', [member.members.members.length, member.members.members.slice(-2)], [500, [{ member: 500, delay: null, heard: 0, holds: null }, { member: 900, delay: 0.002, heard: 0, holds: null }]]);
}

const TESTS = [testOrigins, testReports, testAwaited, testWarnings, testClash, testRefused, testRecord, testHeard, testMoves, testNear, testFollowed, testPatience, testTime, testRoom, testKeptCells, testWaiting, testNewPage, testLast, testPages, testHealth, testShowings, testMembers];

export async function testJudging() {
  for (const test of TESTS) await test();
}
