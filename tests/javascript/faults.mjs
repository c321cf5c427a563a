// Prints what becomes of faults that nobody awaits or listens for, which Node's runner of tests would take as its own.
import { Member, load } from 'wb/node.js';

const member = await Member.open(4, { program: await load(process.env.WB_MODULE), bind: { address: '127.0.0.1', port: 0 }, listen: 0 });
const lost = new Promise((done) => process.once('unhandledRejection', (fault) => done(fault.fault)));
member.draw('1/1', 'line 0 0 9 0');
console.log(await lost);
const warned = new Promise((done) => process.once('warning', (fault) => done(fault.message)));
member.breakOff(new Error('it broke off'));
console.log(await Promise.race([warned, new Promise((done) => setTimeout(done, 5000))]));
process.exit();
