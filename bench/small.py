"""Small models with curves of every kind, for comparing answers."""

from curves import DOWN, UP
from model import Model

# how large the numbers of a model are
SIZES = (3, 20, 1000, 1000000)


def rising(draws, count, size):
    """`count` numbers that rise strictly, within the size."""
    count = min(count, 2 * size + 1)
    chosen = set()
    while len(chosen) < count:
        chosen.add(draws.between(-size, size))
    return sorted(chosen)


def curve(draws, size):
    """A point in one of four cases; else one to four pieces, each end infinite in one of four cases."""
    if draws.happens(1, 4):
        return [draws.between(-size, size)]
    pieces = min(draws.between(1, 4), 2 * size)
    points = rising(draws, pieces + 1, size)
    slopes = rising(draws, pieces, size)
    if draws.happens(1, 4):
        points[0] = DOWN
    if draws.happens(1, 4):
        points[-1] = UP
    items = [points[0]]
    for slope, point in zip(slopes, points[1:]):
        items += [slope, point]
    return items


def base(draws, size):
    return draws.between(-size, size) if draws.happens(1, 3) else 0


def small(draws, most_nodes, most_arcs):
    size = draws.one_of(SIZES)
    model = Model()
    nodes = draws.between(0, most_nodes)
    # some models have supplies that are wanted and even out, as most models in use; else hardly one of many arcs has a plan
    is_even = draws.happens(1, 2)
    left = 0
    for place in range(nodes):
        if is_even and place + 1 == nodes and abs(left) <= size:
            supply = [-left]
        elif draws.happens(1, 3):
            supply = [0]
        elif is_even or draws.happens(1, 2):
            supply = [draws.between(-size, size)]
        else:
            supply = curve(draws, size)
        left += supply[0] if len(supply) == 1 else 0
        model.node(f"n{place}", supply, base(draws, size))
    # where arcs are wide, a plan is likelier
    is_wide = draws.happens(1, 2)
    for number in range(draws.between(0, most_arcs) if nodes > 1 else 0):
        begin = draws.below(nodes)
        end = (begin + 1 + draws.below(nodes - 1)) % nodes
        items = curve(draws, size)
        if is_wide and len(items) > 1:
            items = widened(draws, items, size)
        model.arc(f"a{number}", f"n{begin}", f"n{end}", items, base(draws, size))
    return model


def widened(draws, items, size):
    """The same slopes, from an end at or below 0 to one at or above it."""
    low = 0 if draws.happens(1, 2) else DOWN
    points = rising(draws, len(items) // 2, size)
    points = [point for point in points if point > 0] if low == 0 else points
    high = UP if draws.happens(1, 3) else size + 1 if size < 1000000 else size
    points = [point for point in points if high == UP or point < high]
    result = [low]
    slopes = items[1::2]
    for slope, point in zip(slopes, points[:len(slopes) - 1] + [high]):
        result += [slope, point]
    return result
