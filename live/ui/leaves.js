/** The pages that one turns through, in the order that all members agree on: by the time of the first drawing, as the member tells them, and then
 * as people moved them. */
import { wording } from './language.js';
import { NOTES } from './notes.js';

/** @typedef {import('./types.js').Leaf} Leaf */
/** @typedef {import('./types.js').Drawing} Drawing */
/** Which page people put behind which one, in order; and the pages that they deleted, with the drawings that say so, the last first.
 * @typedef {{ places: [string, string][], gone: Map<string, Drawing[]> }} Ordered */

/** The pages that are listed: all but the reserved one, and those that are deleted. The one in view is listed in any case.
 * @type {(pages: Leaf[], ordered: Ordered, inView: string) => Leaf[]} */
export function leavesOf(pages, { places, gone }, inView) {
  const listed = pages.filter(({ page }) => page !== NOTES);
  for (const [page, after] of places) {
    const from = listed.findIndex((leaf) => leaf.page === page), isKnown = after === NOTES || listed.some((leaf) => leaf.page === after);
    if (from < 0 || !isKnown || page === after) continue;
    const [leaf] = listed.splice(from, 1);
    listed.splice(listed.findIndex((each) => each.page === after) + 1, 0, leaf);
  }
  return listed.filter((leaf) => leaf.page === inView || !isGone(leaf, gone));
}

/** Whether a page is deleted: what is drawn on it afterwards, or brought back, brings it back too.
 * @type {(leaf: Leaf, gone: Map<string, Drawing[]>) => boolean} */
export const isGone = ({ page, last = '0' }, gone) => Number(last) <= Number(gone.get(page)?.[0].time ?? -1);

/** What a page is called without a title: by its place. One on which nobody has drawn has no place that others know, unless there is no other.
 * @type {(leaves: Leaf[], page: string) => string} */
export function calledBy(leaves, page) {
  const at = leaves.findIndex((leaf) => leaf.page === page), isDrawn = at >= 0 && leaves[at].drawn > 0;
  return isDrawn || !leaves.some(({ drawn }) => drawn > 0) ? wording('pageNumber', { number: Math.max(0, at) + 1 }) : wording('newPage');
}
