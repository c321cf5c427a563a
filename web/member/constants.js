/** Which constants the timers of a member have, as C1,C2,D1,D2, by how many others are heard. `live/constants.py` once more, which says why by
 * these numbers. */

export const FEW = '1,1,1,1', SEVERAL = '2,4,1,3', NEAR = '2,8,1,6', FAR = '3,16,1,11';

/** The most others that are heard among few, and among several; and by how many a group has to be below such a bound before it counts as the
 * smaller one again. */
const MOST_FEW = 3, MOST_SEVERAL = 11, MARGIN = 1;

/** 0 for few, 1 for several, 2 for many.
 * @param {number} heard */
const stepOf = (heard) => Number(heard > MOST_FEW) + Number(heard > MOST_SEVERAL);

/** The constants while N = `heard` others are heard, after those before. `many` are those of the network.
 * @param {number} heard @param {string} before @param {string} many */
export function constantsFor(heard, before, many) {
  const steps = [FEW, SEVERAL, many];
  return steps[Math.max(stepOf(heard), Math.min(steps.indexOf(before), stepOf(heard + MARGIN)))];
}
