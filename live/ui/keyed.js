/** Lists of the page that are renewed in place. */

/** Renews the elements of a list. An item has one element as long as it is listed, by its key: so what is pressed or has the focus stays there.
 * @template T @param {HTMLElement} list @param {T[]} items @param {(item: T) => string | number} keyOf
 * @param {(item: T) => HTMLElement} make @param {(element: any, item: T) => void} show what is made has it called too */
export function renew(list, items, keyOf, make, show) {
  const focused = /** @type {HTMLElement} */ (document.activeElement), keys = items.map((item) => String(keyOf(item))), listed = new Set(keys);
  const kept = new Map([.../** @type {Iterable<HTMLElement>} */ (list.children)].map((element) => [element.dataset.key, element]));
  kept.forEach((element, key) => listed.has(key ?? '') || element.remove());
  items.forEach((item, i) => {
    const element = kept.get(keys[i]) ?? make(item);
    element.dataset.key = keys[i];
    show(element, item);
    if (list.children[i] !== element) list.insertBefore(element, list.children[i] ?? null);
  });
  if (list.contains(focused) && document.activeElement !== focused) focused.focus({ preventScroll: true });
}

/** Sets a text that is another one.
 * @param {HTMLElement} element @param {string} text */
export function write(element, text) {
  if (element.textContent !== text) element.textContent = text;
}
