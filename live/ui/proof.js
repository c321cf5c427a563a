/** Tells that the program is not proved yet, and how far the proof is; and, for a time, that it was done. */
import { $ } from './dom.js';
import { write } from './keyed.js';
import { retold } from './language.js';

/** For this many milliseconds the page says that the member has changed over to the proved program. */
const CHANGED_FOR = 60_000;

/** @param {import('./types.js').Proof | undefined} proof */
export function showProof(proof) {
  const line = $('proof'), told = retold(proof?.text), progress = retold(proof?.progress), [bar, done, text] = /** @type {[HTMLProgressElement, HTMLElement, HTMLElement]} */ (/** @type {unknown} */ (line.children));
  if (proof?.proved && told && text.textContent !== told) setTimeout(() => { line.hidden = true; }, CHANGED_FOR);
  else if (!proof || proof.proved) return;
  line.hidden = false;
  line.classList.toggle('proved', proof.proved);
  bar.hidden = !proof.progress;
  bar.max = proof.many || 1;
  bar.value = proof.crates;
  write(done, progress);
  write(text, told);
}
