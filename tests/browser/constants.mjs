// The table of cases of the constants that go by how many others are heard, which `tests/live/test_constants.py` runs too.
import fs from 'node:fs';
import { FEW, constantsFor } from '../../web/member/constants.js';
import { check } from '../check.mjs';

const { cases } = JSON.parse(fs.readFileSync(new URL('../live/constants.json', import.meta.url), 'utf8'));

export function testConstants() {
  for (const { name, many, heard, wanted } of cases) {
    let now = FEW;
    const found = heard.map((others) => { now = constantsFor(others, now, many); return now; });
    check(name, found, wanted);
  }
}
