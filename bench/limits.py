"""Models at the limits: 10,000 nodes or 50,000 arcs, numbers of 10^9."""

from curves import around, both_ways, short, stairs
from model import Model
from parts import arcs_between, balanced, name_of, nodes_of, ring_around, ring_round

NODES = 10000
ARCS = 50000
NUMBER = 10**9


def short_curves(draws):
    model = nodes_of(balanced(draws, NODES, 1000))
    ring_round(model, draws, NODES, 2000)
    arcs_between(model, draws, NODES, ARCS - NODES, lambda begin, end: short(draws, 1000, 1000))
    return model


def long_curves(draws):
    """As many pieces as a file holds: twenty an arc."""
    model = nodes_of(balanced(draws, NODES, 60))
    ring_round(model, draws, NODES, 20000)
    arcs_between(model, draws, NODES, ARCS - NODES,
                 lambda begin, end: stairs(draws, 0, 20, 3, draws.between(-5000, 5000), 200))
    return model


def no_ends(draws):
    """Every arc takes any amount either way."""
    model = nodes_of(balanced(draws, NODES, 1000))
    prices = [draws.between(-1000, 1000) for _ in range(NODES)]
    ring_around(model, draws, prices)
    arcs_between(model, draws, NODES, ARCS - NODES,
                 lambda begin, end: around(draws, prices[end] - prices[begin], 1000, 1000))
    return model


def ring(draws):
    model = nodes_of(balanced(draws, NODES, 1000))
    ring_round(model, draws, NODES, 1000)
    return model


def path(draws):
    """Every supply has to go along the path to where the demands are."""
    model = nodes_of(balanced(draws, NODES, 1000))
    for place in range(NODES - 1):
        model.arc(f"p{place + 1}", name_of(place), name_of(place + 1), both_ways(draws.between(1, 1000)))
    return model


def lanes(plants, shops, each):
    """Every shop has `each` lanes from plants, at two prices; the plants of the ring of lanes bring enough."""
    def make(draws):
        model = Model()
        wants = [draws.between(1, 1000) for _ in range(shops)]
        enough = 2 * sum(wants)
        for plant in range(plants):
            model.node(f"plant{plant + 1}", [0, draws.between(1, 100), enough // plants, draws.between(101, 200), enough])
        for shop, want in enumerate(wants):
            model.node(f"shop{shop + 1}", [-want])
        for shop in range(shops):
            first = draws.below(plants)
            for place in range(each):
                plant = (first + place) % plants
                price = draws.between(1, 1000)
                model.arc(f"c{plant + 1}.{shop + 1}", f"plant{plant + 1}", f"shop{shop + 1}",
                          [0, price, wants[shop] // 2 + 1, price + draws.between(1, 300), 2 * wants[shop]])
        return model
    return make


def numbers(draws):
    """Flows, prices and supplies of up to 10^9."""
    model = nodes_of(balanced(draws, 2000, NUMBER))
    ring_round(model, draws, 2000, NUMBER)
    arcs_between(model, draws, 2000, 8000, lambda begin, end: [0, draws.between(0, NUMBER), draws.between(1, NUMBER)])
    return model
