/** A record as a film: a slider over the session, with who drew when, and what was lost at first. */
import { $ } from './dom.js';
import { wording } from './language.js';

/** @typedef {import('./types.js').Film} Film */
/** @typedef {import('./types.js').Scene} Scene */

/** Milliseconds between two jumps while the slider is drawn. */
const PAUSE = 120;

/** A time of the film, in minutes and seconds.
 * @type {(milliseconds: number) => string} */
export const clockOf = (milliseconds) => `${Math.floor(milliseconds / 60_000)}:${String(Math.floor(milliseconds / 1000) % 60).padStart(2, '0')}`;

/** The last scene up to a time, and how many there were.
 * @type {(scenes: Scene[], at: number) => { scene: Scene | undefined, count: number }} */
export function sceneAt(scenes, at) {
  const count = scenes.filter(([time]) => time <= at).length;
  return { scene: scenes[count - 1], count };
}

export class FilmBar {
  /** @param {import('./session.js').Session} session @param {import('./painter.js').Painter} painter */
  constructor(session, painter) {
    this.session = session;
    this.painter = painter;
    /** @type {Scene[]} */
    this.scenes = [];
    /** @type {Film | null} */
    this.film = null;
    this.timer = 0;
    session.on('scenes', ({ scenes }) => { this.scenes = scenes; this.paint(); });
    session.on('film', (film) => this.take(film));
    $('film-at').addEventListener('input', () => { this.timer ||= setTimeout(() => this.jump(), PAUSE); });
    $('film-stop').addEventListener('click', () => session.member.film?.({ stopped: !this.film?.stopped }));
    $('film-speed').addEventListener('change', () => session.member.film?.({ speed: Number($('film-speed').value) }));
    new ResizeObserver(() => this.paint()).observe($('film-scenes'));
  }

  jump() {
    this.timer = 0;
    this.session.member.film?.({ at: Number($('film-at').value) });
  }

  /** @param {Film} film */
  take(film) {
    const { scene, count } = sceneAt(this.scenes, film.at), slider = $('film-at');
    this.film = film;
    $('film').hidden = false;
    document.body.dataset.film = '';
    slider.max = film.last;
    if (!this.timer) slider.value = film.at;
    $('film-stop').textContent = wording(film.stopped ? 'play' : 'stop');
    const drawn = scene ? `${this.session.who(scene[1])}: ${scene[2]}` : '', what = scene?.[3] ? wording('sceneLost', { what: drawn }) : drawn;
    const at = wording('filmTold', { at: clockOf(film.at), last: clockOf(film.last), count, many: this.scenes.length, what });
    const told = film.missing ? `${at}   ${wording('missing', { n: film.missing })}` : at;
    $('film-told').textContent = told;
    slider.setAttribute('aria-valuetext', told);
  }

  /** A mark for each scene, in the colour of who drew; those that were lost at first stand lower. */
  paint() {
    const canvas = $('film-scenes'), brush = canvas.getContext('2d'), ratio = devicePixelRatio, last = this.scenes.at(-1)?.[0] || 1;
    canvas.width = canvas.clientWidth * ratio;
    canvas.height = canvas.clientHeight * ratio;
    brush.setTransform(ratio, 0, 0, ratio, 0, 0);
    for (const [time, source, , isLate] of this.scenes) {
      brush.fillStyle = this.painter.tintOf(source);
      brush.fillRect((time / last) * (canvas.clientWidth - 2), isLate ? 11 : 0, 2, 9);
    }
  }
}
