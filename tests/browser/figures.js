// Measures the modules in the browser that opens this: the milliseconds to a first answer, the microseconds of a datagram that came, by bytes and by
// lines to a self-managing host and to a judged one, the milliseconds of a canvas and of a start from a record of 60,000 drawops, and the bytes of the
// memory. The datagrams are made by the modules themselves, as hosts of their sources say them.
const folder = new URL(document.body.dataset.folder, location.href);
const [{ Program, isWide }, { hex }] = await Promise.all(['host', 'datagram'].map((name) => import(new URL(`web/member/${name}.js`, folder).href)));

const MEMBER = { place: 777n, owner: null }; // which has answered the judged host
const DRAWOPS = 60_000, ROUNDS = 5, AT_ONCE = 1_000;

const median = (numbers) => [...numbers].sort((one, other) => one - other)[numbers.length >> 1];

async function timed(act) {
  const began = performance.now();
  await act();
  return performance.now() - began;
}

/** Datagrams of drawops, of forty sources on one page. */
async function datagrams(program) {
  const host = await program.start();
  return Array.from({ length: DRAWOPS }, (_, i) => {
    const source = 10 + (i % 40), [x, y] = [(i * 7) % 180, (i * 13) % 90];
    host.renew();
    host.ask(`board ${source} 1 1 1`);
    return host.ask(`say draw ${source} 7/1 ${1 + Math.floor(i / 40)} ${1000 + i} line ${x} ${y} ${x + 6} ${y + 3} *`).sent()[0];
  });
}

/** The microseconds of each datagram that comes to a host, in parts of as many as there are at once. */
async function arrivals(made, hand, between = async () => {}) {
  const taken = [];
  for (let at = 0; at < DRAWOPS; at += AT_ONCE) {
    taken.push((await timed(() => { for (let i = at; i < at + AT_ONCE; i += 1) hand(i, made[i]); }) * 1000) / AT_ONCE);
    await between(at + AT_ONCE);
  }
  return { first: median(taken.slice(0, 10)), each: median(taken), last: median(taken.slice(-10)) };
}

/** What one module takes. */
async function measure(wide) {
  const load = [], start = [], parts = {};
  let program, host;
  for (let round = 0; round < ROUNDS; round += 1) {
    load.push(await timed(async () => { program = await Program.load(folder, wide); }));
    start.push(await timed(async () => { host = await begun(program); }));
  }
  const made = await datagrams(program), other = await begun(program), fresh = await judging(program);
  const [judged, since] = await judging(program), [lined, sinceThen] = await judging(program);
  const byBytes = await arrivals(made, (now, bytes) => host.came(now, bytes), async (count) => {
    if (count === 4_000) parts.canvasOf4000 = median(await rounds(() => host.ask('show 7 1 80 25')));
  });
  const byLines = await arrivals(made, (now, bytes) => other.ask(`came ${now} ${hex(bytes)}`));
  const judgedByBytes = await arrivals(made, (now, bytes) => judged.cameFrom(since + now, MEMBER, bytes));
  const judgedByLines = await arrivals(made, (now, bytes) => lined.ask(`came ${sinceThen + now} 777 ${hex(bytes)}`));
  const again = await timed(() => { for (const bytes of made) fresh[0].ask(`held datagram ${hex(bytes)}`); });
  return { wide, load: median(load), start: median(start), byBytes, byLines, judgedByBytes, judgedByLines, ...parts, canvas: median(await rounds(() => host.ask('show 7 1 80 25'))),
    tick: await ticks(host), again, memory: [host, other, judged].map(({ memory }) => memory.buffer.byteLength), held: host.ask('pages').lines };
}

/** A self-managing host with a board. */
async function begun(program) {
  const host = await program.start();
  for (const line of ['board 1 65535 1 42', 'keep 4000 0']) host.ask(line);
  return host;
}

/** A judged host, which a member at 777 has answered, and the moment of that. */
async function judging(program) {
  const host = await program.start(), reportIn = ({ lines }) => lines.find((line) => line.startsWith('send 57420102'));
  host.ask('board 1 65535 1 42');
  let block = host.ask('judge 0 4000 0 1764000000000000 - -');
  while (!reportIn(block)) block = host.ask(`tick ${block.due}`);
  const moment = reportIn(block).slice(29, 45);
  host.ask(`came ${parseInt(moment, 16)} 777 574201020000002c00000009000000000000000500000001000000010000000100000001${moment}0000000000000000`);
  return [host, parseInt(moment, 16)];
}

async function rounds(act) {
  const taken = [];
  for (let round = 0; round < 2 * ROUNDS; round += 1) taken.push(await timed(act));
  return taken;
}

/** Microseconds of a call that does little. */
async function ticks(host) {
  const taken = await timed(() => { for (let i = 1; i <= 2_000; i += 1) host.tick(DRAWOPS + i); });
  return (taken * 1000) / 2_000;
}

const found = { agent: navigator.userAgent, modules: [] };
try {
  for (const wide of isWide() ? [false, true] : [false]) found.modules.push(await measure(wide));
} catch (fault) {
  found.fault = String(fault);
}
await fetch('told', { method: 'POST', body: JSON.stringify(found) });
