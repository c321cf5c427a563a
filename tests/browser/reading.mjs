// reading.mjs: reads datagrams as the page does, one a line in hexadecimal, and prints the words of each, or `none`.
import fs from 'node:fs';
import { readDatagram, unhex } from '../../web/member/datagram.js';

const lines = fs.readFileSync(0, 'latin1').split('\n').slice(0, -1);
fs.writeSync(1, Buffer.from(lines.map((digits) => `${readDatagram(unhex(digits))?.words ?? 'none'}\n`).join(''), 'latin1'));
