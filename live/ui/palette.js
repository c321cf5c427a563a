/** The glyphs that lines and frames are drawn with: any key, or one of a few to choose from. */
import { clamp } from './cells.js';
import { $, make } from './dom.js';

const GLYPHS = '*#+-|/\\_=~.:o@xX<>^v!?&%';

/** Has the palette set a glyph, and gives what opens it.
 * @param {(glyph: string) => void} setGlyph */
export function makePalette(setGlyph) {
  const palette = $('palette');
  /** @param {string} glyph */
  const choose = (glyph) => {
    setGlyph(glyph);
    palette.close();
  };
  palette.querySelector('.keys').append(...[...GLYPHS].map((glyph) => make('button', glyph)));
  palette.addEventListener('click', (/** @type {any} */ event) => event.target.matches('.keys button') && choose(event.target.textContent));
  palette.addEventListener('keydown', (/** @type {KeyboardEvent} */ event) => {
    if (!/^[!-~]$/.test(event.key) || event.ctrlKey || event.metaKey) return;
    event.preventDefault();
    choose(event.key);
  });
  return () => {
    const box = $('glyph').getBoundingClientRect();
    Object.assign(palette.style, { margin: '0', left: `${clamp(box.left, 8, innerWidth - 368)}px`, top: `${box.bottom + 6}px` });
    palette.showModal();
  };
}
