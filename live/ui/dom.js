/** The few things that all parts of the page do with its elements. */

/** @type {(id: string) => any} */
export const $ = (id) => document.getElementById(id);

/** A new element. Texts of others are set as text, and never as HTML.
 * @type {(tag: string, text?: string, name?: string) => any} */
export const make = (tag, text = '', name = '') => Object.assign(document.createElement(tag), { textContent: text, className: name });

/** Says something to those who listen to the page.
 * @param {string} text */
export function say(text) {
  $('said').textContent = text;
}

let toldTimer = 0;

/** Shows for some seconds what went wrong, or well.
 * @param {string} text @param {boolean} [isWell] */
export function tell(text, isWell = false) {
  [$('told').textContent, $('told').hidden, $('told').className] = [text, false, isWell ? 'well' : ''];
  clearTimeout(toldTimer);
  toldTimer = setTimeout(() => { $('told').hidden = true; }, 5000);
}
