#!/usr/bin/env node
// A member over UDP, by the package of javascript/: as member.py, with the same arguments and the same input.
import { createInterface } from 'node:readline';
import { Member } from 'wb/node.js';

const [me, port, record, ...others] = process.argv.slice(2);
const address = '127.0.0.1';
const member = await Member.open(Number(me), {
  record: record === '-' ? undefined : record,
  bind: { address, port: Number(port) },
  to: others.map((other) => ({ address, port: Number(other) })),
});
member.on('change', (page) => console.log(member.host.show(page, 40, 12).join('\n')));
for await (const line of createInterface({ input: process.stdin })) {
  await member.draw('1/1', line).catch((fault) => console.error(fault.message));
}
member.end();
