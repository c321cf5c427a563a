// How far the ink of a hand of 240 points lies from it, in points of the screen, and the milliseconds that fitting takes a point, round by
// round: prints both as JSON.
import { fitted } from '../../live/ui/inkfitting.js';
import { itemsOf } from '../../live/ui/inkitems.js';
import { placed, writeStroke } from '../../live/ui/inkwriting.js';
import { awayFrom } from './away.mjs';

/** Units of a point of the screen, at 100 %. */
const UNITS = 6.4, NEAR = 0.55 * UNITS, ROUNDS = 21, MANY = 240;

const hand = Array.from({ length: MANY }, (_, i) => ({ x: UNITS * (300 + 4 * i), y: UNITS * Math.round(900 + 60 * Math.sin(i / 12)) }));
const took = Array.from({ length: ROUNDS }, () => {
  const began = performance.now();
  fitted(hand, NEAR);
  return (performance.now() - began) / MANY;
});
const texts = writeStroke({ kind: 's', colour: 0, width: 2, scale: 1 }, fitted(hand, NEAR)).map(({ text }, i) => ({ ...placed(text, i), source: 1, seq: i + 1, time: String(i) }));
console.log(JSON.stringify([awayFrom(hand, itemsOf(texts)[0].points) / UNITS, took]));
