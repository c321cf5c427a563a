// node.mjs JOB: has a member take drawings in under Node, and prints milliseconds of processor (taking.mjs). NODE_PATH has the folder of Yjs.
import { readFileSync } from 'node:fs';
import { createRequire } from 'node:module';
import { join } from 'node:path';
import { isWide } from '../../../javascript/host.js';
import { load } from '../../../javascript/node.js';
import { byModule, byYjs, takeAll } from './taking.mjs';

const job = JSON.parse(process.argv[2]), order = JSON.parse(readFileSync(job.order, 'utf8')), given = readFileSync(job.drawings, 'utf8').split('\n');

function clock() {
  const { user, system } = process.cpuUsage();
  return (user + system) / 1000;
}

async function taker() {
  if (job.kind) return byYjs(createRequire(import.meta.url)('yjs'), { ...job, given });
  return byModule(await load(join(job.folder, isWide() ? 'wb.wasm' : 'wb-any.wasm'), isWide()), { ...job, given });
}

console.log(JSON.stringify(await takeAll(await taker(), { ...job, order }, clock)));
