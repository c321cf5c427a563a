// What a page of in_browser.py calls: `measure` has a member take drawings in, and gives milliseconds by the clock (taking.mjs).
import * as Y from 'yjs';
import { Program } from './host.js';
import { byModule, byYjs, takeAll } from './taking.mjs';

const fetched = async (name) => (await fetch(name)).json();

async function measure(job) {
  const [given, order] = await Promise.all([fetched(job.given), fetched(job.order)]);
  const taker = job.kind ? byYjs(Y, { ...job, given }) : byModule(await Program.load(new URL('./', location.href), job.wide), { ...job, given });
  return takeAll(taker, { ...job, order }, () => performance.now());
}

Object.assign(window, { measure });
