// QR codes of the texts of the input, a JSON list: prints of each the modules, as rows of 0 and 1, of the page's choice and of each mask.
import { readFileSync } from 'node:fs';
import { scancodeOf } from '../../live/ui/scancode.js';

const told = (text, mask) => scancodeOf(text, mask)?.map((row) => row.map(Number).join('')) ?? null;
console.log(JSON.stringify(JSON.parse(readFileSync(0, 'utf8')).map((text) => ({ chosen: told(text), masks: Array.from({ length: 8 }, (_, mask) => told(text, mask)) }))));
