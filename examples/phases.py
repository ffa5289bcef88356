"""The phases of the dam's vertices as counts, 65,536 to a turn: a smooth field, a little noise, two slips and masked vertices. They
are reckoned in whole numbers, so that every machine makes the same."""

import random

import reference as rules

TURN = rules.TURN
SLIPS = (((-8050, 6650), (-4850, 6050)), ((6000, 3800), (7500, 6950)))  # where each begins and ends


def wrapped(count):
    """The count brought by whole turns to at least -32,768 and at most 32,767."""
    return (count + TURN // 2) % TURN - TURN // 2


def direction(x, y):
    """How far (x, y) lies around (0, 0), counterclockwise; along a square that stands on a corner, where whole numbers do, and not a circle."""
    part = TURN // 4 * y // max(1, abs(x) + abs(y))
    return part if x >= 0 else TURN // 2 - part


def slip(x, y, begin, end):
    """What a slip by one turn along a line adds at (x, y): the phase winds once around each of its ends, in opposite ways."""
    return direction(x - begin[0], y - begin[1]) - direction(x - end[0], y - end[1])


def smooth(x, y):
    """A ramp of about four turns from left to right, as the air makes it, and a bulge of two at the middle of the crest."""
    return 9 * x + 2 * TURN * y * (15000 ** 2 - x * x) // (10000 * 15000 ** 2)


def hidden(x, y):
    """Whether a place lies behind the valve house, which stands at the foot of the dam."""
    return abs(x) < 1100 and y < 1700


def dam(places, slips=SLIPS):
    """A count for each place, with noise of up to 2,000; about one place in 150 is masked, and each that is hidden."""
    rng = random.Random(10)
    counts = []
    for x, y in places:
        heard, noise = rng.random() > 1 / 150, round(4000 * (rng.random() - 0.5))
        count = wrapped(smooth(x, y) + sum(slip(x, y, *ends) for ends in slips) + noise)
        counts.append(count if heard and not hidden(x, y) else rules.MASKED)
    return counts
