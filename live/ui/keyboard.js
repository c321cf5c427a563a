/** What is typed stays above a keyboard on the screen: that covers a part of the page, which only the visual viewport tells. */

/** Points that stay free below what is typed. */
const FREE = 16;

/** @param {import('./whiteboard.js').Whiteboard} board */
export function stayAbove({ typing, view }) {
  const seen = window.visualViewport;
  const look = () => {
    const { bottom } = typing.box.getBoundingClientRect(), covered = seen ? bottom + FREE - (seen.offsetTop + seen.height) : 0;
    if (typing.typed && covered > 0) view.goTo(view.left, view.top + covered / view.high);
  };
  seen?.addEventListener('resize', look);
  typing.box.addEventListener('input', look);
}
