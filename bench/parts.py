"""What several classes of models are put together from."""

from curves import around, both_ways
from model import Model


def name_of(place):
    return f"n{place + 1}"


def balanced(draws, count, most):
    """`count` supplies of at most `most` each whose sum is 0, but for the last, which takes what is left."""
    supplies = [draws.between(-most, most) for _ in range(count)]
    for place in range(count - 1):
        if sum(supplies) == 0:
            break
        # towards 0 in sum, and never further than the bound
        wanted = supplies[place] - sum(supplies)
        supplies[place] = max(-most, min(most, wanted))
    return supplies


def nodes_of(supplies):
    model = Model()
    for place, supply in enumerate(supplies):
        model.node(name_of(place), [supply])
    return model


def ring_round(model, draws, count, dearest):
    for place in range(count):
        price = draws.between(1, dearest)
        model.arc(f"r{place + 1}", name_of(place), name_of((place + 1) % count), both_ways(price))


def ring_around(model, draws, prices):
    """A ring whose slopes are around the tensions of these potentials."""
    for begin in range(len(prices)):
        end = (begin + 1) % len(prices)
        model.arc(f"r{begin + 1}", name_of(begin), name_of(end), around(draws, prices[end] - prices[begin], 1000, 1000))


def two_places(draws, count):
    begin = draws.below(count)
    return begin, (begin + 1 + draws.below(count - 1)) % count


def arcs_between(model, draws, count, arcs, curve):
    """`arcs` arcs between two nodes each, with curves by `curve(begin, end)`."""
    for number in range(arcs):
        begin, end = two_places(draws, count)
        model.arc(f"c{number + 1}", name_of(begin), name_of(end), curve(begin, end))
