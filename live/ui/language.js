/** The language in which the page speaks: each text by its key, with values in it, and in the form that a number asks for. */
import { TEXTS } from './texts.js';

/** @typedef {keyof typeof TEXTS} Key */
/** @typedef {Record<string, string | number>} Values */

/** The languages, in the order of the table. Digits are those that the board has in all of them. */
export const LANGUAGES = ['en', 'de', 'ar'];

/** Languages that are written from right to left. */
const FROM_RIGHT = ['ar'];

/** Where the page keeps what was chosen. */
const KEPT = 'wb-language';

/** What runs the other way than the words about it stands for itself: how it begins and ends. */
const [ISOLATED, ENDED] = ['\u2068', '\u2069'], RIGHT = /[\u0590-\u08ff]/, LEFT = /[a-z\u00c0-\u024f[\]]/i;

/** The language of an address that names one, as `?lang=de`; else the one that was chosen; else the first that the browser's owner reads; else English.
 * @type {(address: string, chosen: string | null, read: readonly string[]) => string} */
export function languageOf(address, chosen, read) {
  const wished = [new URLSearchParams(address).get('lang'), chosen, ...read].map((each) => (each ?? '').toLowerCase().split('-')[0]);
  return wished.find((each) => LANGUAGES.includes(each)) ?? LANGUAGES[0];
}

const isPage = typeof document !== 'undefined';

export const LANGUAGE = isPage ? languageOf(location.search, localStorage.getItem(KEPT), navigator.languages) : LANGUAGES[0];

/** The language with its land, as the owner of the browser reads it. */
export const LOCALE = `${(isPage && navigator.languages.find((each) => each.toLowerCase().split('-')[0] === LANGUAGE)) || LANGUAGE}-u-nu-latn`;

/** @type {(language: string) => boolean} */
export const isFromRight = (language) => FROM_RIGHT.includes(language);

/** A value as it stands in a text.
 * @type {(language: string, value: string | number | undefined) => string} */
function standing(language, value = '') {
  const is = typeof value === 'string' && (isFromRight(language) ? LEFT : RIGHT).test(value);
  return is ? ISOLATED + value + ENDED : String(value);
}

/** A text of the table in a language.
 * @type {(language: string, key: Key, values?: Values) => string} */
export function wordingIn(language, key, values = {}) {
  const row = /** @type {any} */ (TEXTS[key])[LANGUAGES.indexOf(language)];
  const text = typeof row === 'string' ? row : row[new Intl.PluralRules(language).select(Number(values.n))];
  return text.replace(/\{(\w+)\}/g, (/** @type {string} */ _all, /** @type {string} */ name) => standing(language, values[name]));
}

/** A text of the table.
 * @type {(key: Key, values?: Values) => string} */
export const wording = (key, values) => wordingIn(LANGUAGE, key, values);

/** What members tell, by a pattern of their English each; what has the fewest values first.
 * @type {[Key, RegExp][]} */
const TOLD = /** @type {[Key, any][]} */ (Object.entries(TEXTS)).filter(([key]) => key.startsWith('told'))
  .sort(([, [a]], [, [b]]) => a.split('{').length - b.split('{').length || b.length - a.length)
  .map(([key, [english]]) => [key, new RegExp(`^${english.replace(/[.*+?^$()|[\]\\]/g, '\\$&').replace(/\{(\w+)\}/g, '(?<$1>.+?)')}$`)]);

/** What a member tells in English, in a language: as it is if the table has nothing like it.
 * @type {(language: string, text: string) => string} */
export function retoldIn(language, text) {
  for (const [key, pattern] of TOLD) {
    const groups = pattern.exec(text)?.groups, found = groups || pattern.test(text);
    if (found) return wordingIn(language, key, Object.fromEntries(Object.entries(groups ?? {}).map(([name, value]) => [name, retoldIn(language, value)])));
  }
  return text;
}

/** What a member tells, as one reads it here.
 * @type {(text: string | undefined) => string} */
export const retold = (text = '') => (LANGUAGE === LANGUAGES[0] ? text : retoldIn(LANGUAGE, text));

// ---- the texts of the page's HTML

/** Keys as they are written on them, as Ctrl+Shift+Z for `Control+Shift+Z`. Each of two that a space parts does the same.
 * @type {(keys: string) => string} */
function keysOf(keys) {
  const [one, other] = keys.split(' ').map((each) => each.replace('Control', wording('keyControl')).replace('Shift', wording('keyShift')).replace('Delete', wording('keyDelete')));
  return other ? wording('or', { one, other }) : one;
}

/** What an element of the HTML is to say, by its attributes `data-text`, `data-label`, `data-tip` and `data-hint`.
 * @type {Record<string, (element: any, key: Key) => void>} */
const PLACES = {
  text: (element, key) => {
    const parts = wording(key).split('{}'), within = [...element.children];
    element.replaceChildren(...parts.flatMap((part, i) => (i ? [within[i - 1], part] : [part])));
  },
  label: (element, key) => element.setAttribute('aria-label', wording(key)),
  tip: (element, key) => {
    const text = wording(key), keys = element.dataset.keys ?? element.getAttribute('aria-keyshortcuts');
    element.title = keys ? wording('withKeys', { text, keys: keysOf(keys) }) : text;
    element.setAttribute('aria-label', text);
  },
  title: (element, key) => { element.title = wording(key); },
  hint: (element, key) => { element.placeholder = wording(key); },
};

/** Has the page speak its language, and offers the others. */
export function speak() {
  Object.assign(document.documentElement, { lang: LANGUAGE, dir: isFromRight(LANGUAGE) ? 'rtl' : 'ltr' });
  for (const [place, put] of Object.entries(PLACES)) {
    for (const element of document.querySelectorAll(`[data-${place}]`)) put(element, /** @type {Key} */ (/** @type {HTMLElement} */ (element).dataset[place]));
  }
  const choice = /** @type {HTMLSelectElement} */ (document.getElementById('language'));
  choice.value = localStorage.getItem(KEPT) ?? '';
  choice.addEventListener('change', () => turnTo(choice.value));
}

/** Begins the page anew in another language.
 * @param {string} language empty for that of the browser */
function turnTo(language) {
  const address = new URL(location.href);
  if (language) localStorage.setItem(KEPT, language);
  else localStorage.removeItem(KEPT);
  address.searchParams.delete('lang');
  history.replaceState(null, '', address);
  location.reload();
}
