"""Curve lists: breakpoints and slopes in turn, both strictly rising."""

UP = "+inf"
DOWN = "-inf"


def stairs(draws, begin, pieces, longest, slope, steepest):
    """From `begin` on, `pieces` pieces of at most `longest` each, the slopes rising from `slope` by at most `steepest` a piece."""
    items = [begin]
    for _ in range(pieces):
        begin += draws.between(1, longest)
        items += [slope, begin]
        slope += draws.between(1, steepest)
    return items


def short(draws, longest, steepest):
    """From 0, one to three pieces, no slope below 0."""
    return stairs(draws, 0, draws.between(1, 3), longest, draws.below(steepest), steepest)


def both_ways(price):
    """Any amount either way, each unit at the same price."""
    return [DOWN, -price, 0, price, UP]


def around(draws, tension, longest, steepest):
    """No end on either side; slopes below `tension` on the left and above it on the right, so that some flow goes with it."""
    left = draws.between(1, longest)
    right = draws.between(1, longest)
    steps = [draws.between(1, steepest) for _ in range(4)]
    low, high = tension - steps[0], tension + steps[1]
    return [DOWN, low - steps[2], -left, low, 0, high, right, high + steps[3], UP]
