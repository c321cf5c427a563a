/** Drawing with others, what is kept, and what is proved: a dialog of the page. */
import { $, make, tell } from '../../live/ui/dom.js';
import { codeFor } from '../../live/ui/inviting.js';
import { retold, wording } from '../../live/ui/language.js';
import { forOthers, newName, readInvitation, writeInvitation } from './invitation.js';
import { canSeal, newKey } from './seal.js';

/** What the build says of itself.
 * @typedef {{ sources: string, toolchain: string, binaryen: string, modules: Record<string, string> }} Built */

/** @param {string} label @param {() => void} act */
function button(label, act) {
  const made = make('button', label);
  made.type = 'button';
  made.addEventListener('click', act);
  return made;
}

/** A labelled field.
 * @param {string} name @param {string} label @param {string} value */
function field(name, label, value) {
  const input = make('input'), row = make('label', `${label} `);
  Object.assign(input, { id: name, value, spellcheck: false, autocomplete: 'off', dir: 'ltr' });
  row.append(input);
  return row;
}

export class Panel {
  /** @param {import('./invitation.js').Invitation} invitation @param {Built} built */
  constructor(invitation, built) {
    this.invitation = invitation;
    this.built = built;
    this.dialog = make('dialog');
    Object.assign(this.dialog, { id: 'with', ariaLabel: wording('drawTogether') });
    this.told = make('p', '', 'told');
    this.dialog.append(...this.carrying(), ...this.keeping(), ...this.proving(), this.closing());
    document.body.append(this.dialog);
    for (const id of ['invite', 'invite-code']) $(id).addEventListener('click', () => this.dialog.showModal());
  }

  /** While no datagram is carried, the health of the page is nobody's.
   * @param {{ carried: boolean, phrase: string }} health */
  take({ carried, phrase }) {
    if (!carried) this.tellLost(retold(phrase));
  }

  /** @param {string} phrase */
  tellLost(phrase) {
    $('phrase').className = 'lost';
    $('state').className = 'island lost';
    $('phrase').textContent = $('state').querySelector('span').textContent = phrase;
  }

  /** Who can draw here, and how others come to. */
  carrying() {
    const { broker } = this.invitation;
    if (!broker) {
      return [make('h2', wording('drawTogether')), make('p', wording('tabsOnly')), field('broker', wording('broker'), ''), button(wording('beginThere'), () => this.move())];
    }
    const address = location.href.replace(/#.*/, '') + writeInvitation(forOthers(this.invitation)), line = field('line', wording('invitation'), address);
    line.querySelector('input').readOnly = true;
    const share = 'share' in navigator ? [button(wording('share'), () => navigator.share({ url: this.line() }).catch(() => {}))] : [];
    const unsealed = this.invitation.key ? [] : [make('p', wording('noKey'), 'warning')];
    return [make('h2', wording('drawTogether')), ...codeFor(address), make('p', wording('sendThisLine')), ...unsealed, line, button(wording('copy'), () => this.copy()), ...share];
  }

  keeping() {
    return [make('h2', wording('whatIsKept')), make('p', wording('keptHere'))];
  }

  proving() {
    const { sources, toolchain, binaryen, modules } = this.built;
    const told = Object.entries(modules).map(([name, digest]) => `${name} ${digest.slice(0, 12)}`).join(', ');
    this.module = make('p', wording('builtFrom', { sources: sources.slice(0, 12), toolchain, binaryen, modules: told }), 'small');
    return [make('h2', wording('whatIsProved')), make('p', wording('provedHere')), this.module];
  }

  closing() {
    const form = make('form');
    form.method = 'dialog';
    form.append(make('button', wording('close')));
    return form;
  }

  line() {
    return $('line').value;
  }

  async copy() {
    $('line').select();
    await navigator.clipboard?.writeText(this.line()).then(() => tell(wording('copiedLine')), () => {});
  }

  /** Turns to a new session that a broker carries. */
  move() {
    try {
      if (!canSeal()) throw new Error('a key takes a page that came by https, or from this machine');
      const fragment = writeInvitation({ session: newName(), broker: $('broker').value.trim(), key: newKey() });
      if (!readInvitation(fragment).broker) throw new Error('a broker has an address that begins with wss://');
      location.hash = fragment;
    } catch (fault) {
      tell(wording('noBroker', { why: retold(/** @type {Error} */ (fault).message) }));
    }
  }

  /** @param {string} module */
  begun(module) {
    const told = ` ${wording('runsModule', { module })}`;
    if (!this.module.textContent.endsWith(told)) this.module.append(told);
  }

  /** The member has ended, and does not come again by itself.
   * @param {string} fault */
  broke(fault) {
    this.tellLost(wording('stopped', { why: retold(fault) }));
    tell(wording('boardStopped', { why: retold(fault) }));
  }
}
