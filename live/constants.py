"""Which constants the timers of a member have, as C1,C2,D1,D2, by how many others are heard (docs/LABORATORY.md). Whoever pretends to be many
makes repairs wait as in a large group, and no longer."""
from __future__ import annotations

# Among few members what is lost again and again waits longest, and chance parts enough of them.
FEW, SEVERAL = "1,1,1,1", "2,4,1,3"

# Among many, chance alone parts those that are equally far from one another. Of 50 at most 6 ask and 6 repair for a loss on average: by the
# first up to 5 ms apart, by the second, which is a broker's, farther apart.
NEAR, FAR = "2,8,1,6", "3,16,1,11"

# the most others that are heard among few, and among several
MOST_FEW, MOST_SEVERAL = 3, 11

# by how many a group has to be below such a bound before it counts as the smaller one again, so that nothing goes to and fro
MARGIN = 1


def constants_for(heard: int, before: str, many: str) -> str:
    """The constants while N = `heard` others are heard, after those before. `many` are those of the network."""
    steps = FEW, SEVERAL, many
    at, least, most = steps.index(before), step_of(heard), step_of(heard + MARGIN)
    return steps[max(least, min(at, most))]


def step_of(heard: int) -> int:
    """0 for few, 1 for several, 2 for many."""
    return (heard > MOST_FEW) + (heard > MOST_SEVERAL)
