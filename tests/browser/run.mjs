// run.mjs MODULE: answers the lines of standard input by the module, as `wb host` does, each before it reads on.
import fs from 'node:fs';
import { Program } from '../../web/member/host.js';

const LINE_FEED = 10;
const host = await new Program(await WebAssembly.compile(fs.readFileSync(process.argv[2])), false).start();

/** Some bytes of the input; none at its end. */
function some() {
  const room = Buffer.alloc(1 << 16);
  for (;;) {
    try {
      return room.subarray(0, fs.readSync(0, room));
    } catch (fault) {
      if (fault.code === 'EOF') return room.subarray(0, 0);
      if (fault.code !== 'EAGAIN') throw fault;
    }
  }
}

function answer(line) {
  const block = Buffer.from(host.printed(line));
  for (let at = 0; at < block.length;) at += fs.writeSync(1, block, at);
}

let rest = Buffer.alloc(0);
for (let part = some(); part.length; part = some()) {
  rest = Buffer.concat([rest, part]);
  for (let end = rest.indexOf(LINE_FEED); end >= 0; end = rest.indexOf(LINE_FEED)) {
    answer(rest.subarray(0, end));
    rest = rest.subarray(end + 1);
  }
}
if (rest.length) answer(rest);
