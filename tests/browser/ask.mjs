// ask.mjs MODULE [bytes]: gives the lines of standard input to a module as the page does, one by one, and prints the blocks; with `bytes`, by calls
// by bytes where there are such. At the end it tells, on standard error, the microseconds of a line and the bytes of the memory.
import fs from 'node:fs';
import { Program } from '../../web/member/host.js';
import { blockOf } from './bytes.mjs';

const [file, way] = process.argv.slice(2), began = performance.now();
const program = new Program(await WebAssembly.compile(fs.readFileSync(file)), false), host = await program.start(), spelling = await program.start();
const lines = fs.readFileSync(0, 'latin1').split('\n').slice(0, -1), from = performance.now();
const blocks = lines.map((line) => (way === 'bytes' ? blockOf(host, line, spelling) : host.text(line)));
const passed = performance.now() - from;
fs.writeSync(1, Buffer.from(blocks.join(''), 'latin1'));
fs.writeSync(2, JSON.stringify({ start: from - began, line: (passed * 1000) / lines.length, memory: host.memory.buffer.byteLength }));
