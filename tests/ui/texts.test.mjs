// The table of texts and how it is read, with values from outside: `node --test tests/ui/texts.test.mjs`.
import test from 'node:test';
import { LANGUAGES, languageOf, retoldIn, wordingIn } from '../../live/ui/language.js';
import { addressOf } from '../../live/ui/state.js';
import { TEXTS } from '../../live/ui/texts.js';
import { check } from '../check.mjs';

/** The forms of a text, by their names; one that does not count has one form. */
const formsOf = (row) => (typeof row === 'string' ? { other: row } : row);

/** The values and elements that stand in a text. A form may say its number by itself. */
const placesIn = (text, counts) => [...text.matchAll(/\{(\w*)\}/g)].map(([, name]) => name).filter((name) => !counts || name !== 'n').sort();

const rows = Object.entries(TEXTS);

function testRows() {
  check('each text is there in each language', rows.filter(([, row]) => row.length !== LANGUAGES.length).map(([key]) => key), []);
  check('no text is empty', rows.filter(([, row]) => row.some((each) => Object.values(formsOf(each)).some((text) => !text.trim()))).map(([key]) => key), []);
  check('what counts in one language counts in all', rows.filter(([, row]) => new Set(row.map((each) => typeof each)).size > 1).map(([key]) => key), []);
  const wrong = rows.filter(([, row]) => row.some((each, i) => typeof each === 'object'
    && String(Object.keys(each).sort()) !== String([...new Intl.PluralRules(LANGUAGES[i]).resolvedOptions().pluralCategories].sort())));
  check('what counts has the forms of its language', wrong.map(([key]) => key), []);
  const counts = (row) => typeof row[0] === 'object', all = (row) => row.flatMap((each) => Object.values(formsOf(each)));
  check('the same values stand in each form', rows.filter(([, row]) => new Set(all(row).map((text) => String(placesIn(text, counts(row))))).size > 1).map(([key]) => key), []);
  check('a number stands in the form of many', rows.filter(([, row]) => counts(row) && row.some((each) => !each.other.includes('{n}'))).map(([key]) => key), []);
  const bare = (row, i) => String(formsOf(row[i]).other).replace(/\{\w*\}/g, '');
  const latin = rows.filter(([key, row]) => !['english', 'german'].includes(key) && /[A-Za-z]{3}/.test(bare(row, 0)) && !/[\u0600-\u06ff]/.test(bare(row, 2)));
  check('Arabic is written in its letters, but for names and what stands on keys', latin.map(([key]) => key),
    ['keyControl', 'keyShift', 'keyDelete', 'keysShift', 'keysUndo', 'keysClipboard', 'keysDelete', 'keysSize', 'keysEscape', 'saveSvg']);
}

function testForms() {
  const arabic = (n) => wordingIn('ar', 'selected', { n });
  check('Arabic counts as it is spoken', [0, 1, 2, 3, 10, 11, 99, 100, 102, 103, 111].map(arabic), ['لا شيء محدد', 'رسم واحد محدد', 'رسمان محددان', '3 رسوم محددة',
    '10 رسوم محددة', '11 رسمًا محددًا', '99 رسمًا محددًا', '100 رسم محدد', '102 رسم محدد', '103 رسوم محددة', '111 رسمًا محددًا']);
  check('English and German', [1, 2].flatMap((n) => ['en', 'de'].map((language) => wordingIn(language, 'came', { n }))),
    ['1 drawing came', '1 Zeichnung ist gekommen', '2 drawings came', '2 Zeichnungen sind gekommen']);
  check('who writes the other way stands for themselves', [wordingIn('de', 'following', { name: 'سلمى' }), wordingIn('ar', 'following', { name: 'Tom' }), wordingIn('ar', 'following', { name: 'سلمى' })],
    ['Du folgst \u2068سلمى\u2069', 'أنت تتابع \u2068Tom\u2069', 'أنت تتابع سلمى']);
}

function testChoice() {
  const cases = [['', null, ['de-AT', 'en']], ['?lang=ar', 'de', ['en']], ['', 'ar', ['de']], ['?lang=fr', null, ['fr', 'de']], ['', null, ['fr']], ['?lang=DE-ch', null, []], ['?x=1', '', []]];
  check('the address first, then the choice, then what the browser reads, then English', cases.map((each) => languageOf(...each)), ['de', 'ar', 'ar', 'de', 'en', 'de', 'en']);
  check('the next board has the language that the address asks for', [addressOf('http://127.0.0.1:9/x/', 'http://127.0.0.1:8/y/?lang=ar'), addressOf('#session=n', 'https://a.example/b/?lang=de#session=o')],
    ['http://127.0.0.1:9/x/?lang=ar', 'https://a.example/b/?lang=de#session=n']);
}

function testTold() {
  const told = ['whole; nobody else is heard', 'caught up 12 s ago', "the record can't be written (No space left on device): nothing is drawn until there is room", 'word 3: no number', ''];
  check('what a member tells', told.map((text) => retoldIn('de', text)), ['vollständig; sonst ist niemand zu hören', 'vor 12 s aufgeholt',
    'die Aufzeichnung lässt sich nicht schreiben (No space left on device): bis Platz ist, wird nichts gezeichnet', 'word 3: no number', '']);
  check('in English as it is', retoldIn('en', 'the broker a.example, session monday'), 'the broker a.example, session monday');
}

test('Rows', testRows);
test('Forms', testForms);
test('Choice', testChoice);
test('Told', testTold);
