/** Colours of ink, and one for each member. Those by numbers are as light as one another, so that each can be read on the page's grounds. */

/** Lightness and strength of the colours, by day and by night. */
const BY_DAY = { light: 0.46, strength: 0.15 }, BY_NIGHT = { light: 0.82, strength: 0.11 };

/** Numbers that follow one another are this many degrees apart: the golden angle, so that no two of a few are near. */
const APART = 137.50776;

/** Colours of members that are kept. */
const MOST_KNOWN = 4096;

/** @type {(part: number) => number} */
const toScreen = (part) => (part <= 0.0031308 ? 12.92 * part : 1.055 * part ** (1 / 2.4) - 0.055);

/** Red, green and blue from 0 to 1, of a colour by lightness, strength and degrees (Oklch); outside that range where a screen has none.
 * @type {(light: number, strength: number, degrees: number) => number[]} */
function partsOf(light, strength, degrees) {
  const [a, b] = [strength * Math.cos((degrees * Math.PI) / 180), strength * Math.sin((degrees * Math.PI) / 180)];
  const l = (light + 0.3963377774 * a + 0.2158037573 * b) ** 3, m = (light - 0.1055613458 * a - 0.0638541728 * b) ** 3;
  const s = (light - 0.0894841775 * a - 1.291485548 * b) ** 3;
  return [4.0767416621 * l - 3.3077115913 * m + 0.2309699292 * s, -1.2684380046 * l + 2.6097574011 * m - 0.3413193965 * s,
    -0.0041960863 * l - 0.7034186147 * m + 1.707614701 * s].map(toScreen);
}

/** The hue of a member, in degrees.
 * @type {(member: number) => number} */
export const hueOf = (member) => (member * APART) % 360;

/** @type {Map<string, string>} */
const known = new Map();

/** The colour of a member, as `#rrggbb`.
 * @type {(member: number, isNight: boolean) => string} */
export function colourOf(member, isNight) {
  const key = `${member} ${isNight}`, found = known.get(key) ?? tinted(member, isNight ? BY_NIGHT : BY_DAY);
  if (known.size > MOST_KNOWN) known.clear();
  known.set(key, found);
  return found;
}

/** @type {(member: number, by: { light: number, strength: number }) => string} */
function tinted(member, { light, strength }) {
  let parts = [0, 0, 0];
  for (let part = strength; part >= 0; part -= 0.01) {
    parts = partsOf(light, part, hueOf(member));
    if (parts.every((value) => value >= 0 && value <= 1)) break;
  }
  return `#${parts.map((value) => Math.round(255 * Math.min(1, Math.max(0, value))).toString(16).padStart(2, '0')).join('')}`;
}

/** The colours of ink, by day and by night: ink, red, orange, yellow, green, teal, blue, violet, grey. */
export const DAY = ['#1d2433', '#d3302f', '#c45a00', '#c98a00', '#14803c', '#0a7d7d', '#1d5fd6', '#7138d8', '#667085'];
export const NIGHT = ['#eef1f6', '#ff8f87', '#ffb066', '#ffd95a', '#76dd9f', '#62d9d6', '#8ab6ff', '#c8aaff', '#a8b0bd'];

/** The colours of a page beside those of ink, where it is saved or printed: on white, whatever the screen has. */
export const ON_WHITE = { paper: '#ffffff', ink: DAY[0], accent: DAY[6] };

/** The same of the highlighter, of notes, and of what is tinted. */
export const BRIGHT = ['#9aa4b5', '#ff6b62', '#ff9f43', '#ffd60a', '#4cd07d', '#35d0cc', '#5b9dff', '#a67bff', '#b6bcc8'];

/** What they are called in the table of texts; the tenth is the colour of the member that drew.
 * @type {import('./language.js').Key[]} */
export const COLOURS = ['black', 'red', 'orange', 'yellow', 'green', 'teal', 'blue', 'violet', 'grey', 'ownColour'];

/** The order in which they are offered, and in which members get one: of the first four each differs most from the others, also for the colour-blind. */
export const OFFERED = [0, 6, 1, 4, 2, 3, 5, 7, 8], FOR_MEMBERS = [7, 3, 5, 1, 2, 4, 6, 8];

/** The colours of members who have chosen none: of those that none of the others here has chosen the first ones, by their numbers. Whoever finds none
 * left has a colour by its number alone.
 * @type {(members: number[], chosen: Map<number, number>) => Map<number, number>} */
export function coloursFor(members, chosen) {
  const taken = new Set(members.map((member) => chosen.get(member))), free = FOR_MEMBERS.filter((colour) => !taken.has(colour));
  const without = members.filter((member) => !chosen.has(member)).sort((a, b) => a - b);
  return new Map(without.slice(0, free.length).map((member, i) => [member, free[i]]));
}
