"""What the published analysis says, and the exact means for the timers that wb has. The unit of delays is the distance."""
from __future__ import annotations


def published_requests(group: int, c2: int) -> float:
    """Requests for a loss on the source's link of a star with this many members."""
    return 1 + (group - 2) / c2


def published_first_request(group: int, c1: int, c2: int) -> float:
    """The mean wait until the first of the group - 1 members that lack the drawop asks."""
    return c1 + c2 / group


def exact_senders(timers: int, width: int, reach: float = 1) -> float:
    """How many of these timers fire, if each is uniform over `width` distances and the first stops those more than one distance later.

    With n timers and p = 1/width: 1 + n p - p^n. Where timers take a distance for longer than it is, `reach` is the true one in it, and
    p = reach/width.
    """
    share = reach / width
    return 1 + timers * share - share ** timers
