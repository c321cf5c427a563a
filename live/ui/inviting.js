/** How others come to the board: its address, and the same as a QR code. */
import { $, tell } from './dom.js';
import { wording } from './language.js';
import { pathOfCode, scancodeOf } from './scancode.js';

const SVG = 'http://www.w3.org/2000/svg';

/** A text as a QR code: dark on white, by night too, since readers need that. Nothing if it is too long.
 * @type {(text: string) => SVGElement[]} */
export function codeFor(text) {
  const rows = scancodeOf(text), picture = document.createElementNS(SVG, 'svg'), path = document.createElementNS(SVG, 'path');
  if (!rows) return [];
  const { way, size } = pathOfCode(rows);
  picture.setAttribute('viewBox', `0 0 ${size} ${size}`);
  picture.setAttribute('role', 'img');
  picture.setAttribute('aria-label', wording('addressCode'));
  picture.setAttribute('class', 'code');
  path.setAttribute('d', way);
  picture.append(path);
  return [picture];
}

/** Whether a name is of this machine alone.
 * @type {(name: string) => boolean} */
const isHere = (name) => /^(localhost|127\..*|\[::1\])$/.test(name);

/** The address that others open: the one of this window, unless that is of this machine alone and the program has another.
 * @type {(own: string, told: string) => string} */
export function addressFor(own, told) {
  const { origin, pathname, hostname } = new URL(own);
  return isHere(hostname) && told ? told : origin + pathname;
}

export class Inviting {
  /** @param {string} told the address of which the program says that it is for others */
  constructor(told) {
    this.address = addressFor(location.href, told);
    for (const id of ['invite', 'invite-code']) $(id).addEventListener('click', () => this.show());
    $('inviting-copy').addEventListener('click', () => this.copy());
  }

  show() {
    const isReached = !isHere(new URL(this.address).hostname);
    $('inviting-code').replaceChildren(...codeFor(this.address));
    $('inviting-line').value = this.address;
    $('inviting-here').hidden = isReached;
    $('inviting').showModal();
  }

  async copy() {
    $('inviting-line').select();
    await navigator.clipboard?.writeText(this.address).then(() => tell(wording('copiedLine')), () => {});
  }
}
