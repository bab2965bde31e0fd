"""The classes of models that are measured. Each is a function of draws; `CLASSES` names them all.

All but the small ones have 2,000 nodes or 10,000 arcs; `limits` has those at the limits of a model. Where a class is to have a plan, a ring of arcs
that take any amount either way keeps it feasible.
"""

import limits
from curves import DOWN, UP, around, both_ways, short, stairs
from model import Model
from parts import arcs_between, balanced, name_of, nodes_of, ring_around, ring_round, two_places


def trial(number):
    """The model of the command `trial NUMBER`."""
    def make(draws):
        draws.state = number
        supplies = [draws.below(21) - 10 for _ in range(199)]
        model = nodes_of(supplies + [-sum(supplies)])
        ring_round(model, draws, 200, 1000)
        for place in range(800):
            begin = draws.below(200)
            step = 1 + draws.below(199)
            slope = draws.below(1000) - 500
            point = 1 + draws.below(50)
            steeper = 1 + draws.below(100)
            further = 1 + draws.below(50)
            model.arc(f"c{place + 1}", name_of(begin), name_of((begin + step) % 200),
                      [0, slope, point, slope + steeper, point + further])
        return model
    return make


def random(nodes, arcs, most=1000):
    def make(draws):
        model = nodes_of(balanced(draws, nodes, most))
        ring_round(model, draws, nodes, 2000)
        arcs_between(model, draws, nodes, arcs - nodes, lambda begin, end: short(draws, most, 1000))
        return model
    return make


def grid(rows, columns, supplies, longest):
    """Arcs both ways between neighbours. The arcs of the first row and the last column take any amount."""
    def make(draws):
        model = nodes_of(supplies(draws, rows, columns))
        for row in range(rows):
            for column in range(columns):
                here = row * columns + column
                rim = row in (0, rows - 1) or column in (0, columns - 1)
                for there, is_there in ((here + 1, column + 1 < columns), (here + columns, row + 1 < rows)):
                    for begin, end in ((here, there), (there, here)):
                        if is_there:
                            items = short(draws, longest, 100)
                            rest = [items[-2] + 1000, UP] if rim else []
                            model.arc(f"c{model.arcs + 1}", name_of(begin), name_of(end), items + rest)
        return model
    return make


def scattered(draws, rows, columns):
    """A small supply at every place."""
    return balanced(draws, rows * columns, 5)


def across(draws, rows, columns):
    """From the first column to the last."""
    supplies = [0] * (rows * columns)
    for row in range(rows):
        amount = draws.between(100, 1000)
        supplies[row * columns] += amount
        supplies[draws.below(rows) * columns + columns - 1] -= amount
    return supplies


def ring(draws):
    model = nodes_of(balanced(draws, 2000, 1000))
    for place in range(2000):
        first, second, third = draws.between(1, 100), draws.between(101, 500), draws.between(501, 900)
        model.arc(f"r{place + 1}", name_of(place), name_of((place + 1) % 2000),
                  [DOWN, -second, -third, -first, 0, first, third, second, UP])
    return model


def path(draws):
    """Supplies that are wanted, and at every tenth node one that can be bought or sold at prices of its own."""
    model = Model()
    for place in range(2000):
        if place % 10 == 0:
            low = draws.between(1, 10000)
            model.node(name_of(place), [DOWN, -low - 5000, -1000, -low, 0, low + 20000, 1000, low + 30000, UP])
        else:
            model.node(name_of(place), [draws.between(-100, 100)])
    for place in range(1999):
        model.arc(f"p{place + 1}", name_of(place), name_of(place + 1), both_ways(draws.between(1, 100)))
    return model


def transport(plants, shops):
    """Every plant to every shop, at the distance between them; plants have two prices."""
    def make(draws):
        model = Model()
        places = [(draws.below(1000), draws.below(1000)) for _ in range(plants + shops)]
        wants = [draws.between(1, 1000) for _ in range(shops)]
        each = sum(wants) // plants + 1
        for plant in range(plants):
            cheap = draws.between(100, 500)
            model.node(f"plant{plant + 1}", [0, cheap, each, cheap + draws.between(1, 300), 2 * each])
        for shop, want in enumerate(wants):
            model.node(f"shop{shop + 1}", [-want])
        for plant in range(plants):
            for shop in range(shops):
                here, there = places[plant], places[plants + shop]
                distance = abs(here[0] - there[0]) + abs(here[1] - there[1])
                model.arc(f"c{plant + 1}.{shop + 1}", f"plant{plant + 1}", f"shop{shop + 1}", [0, distance, wants[shop]])
        return model
    return make


def assignment(count, dearest):
    def make(draws):
        model = Model()
        for side, supply in (("a", 1), ("b", -1)):
            for place in range(count):
                model.node(f"{side}{place + 1}", [supply])
        for begin in range(count):
            for end in range(count):
                model.arc(f"c{begin + 1}.{end + 1}", f"a{begin + 1}", f"b{end + 1}", [0, draws.between(1, dearest), 1])
        return model
    return make


def long_lists(pieces, nodes, arcs):
    """Curves of many short pieces, and supplies that use about half of them."""
    def make(draws):
        model = nodes_of(balanced(draws, nodes, 2 * pieces))
        ring_round(model, draws, nodes, 20000)
        arcs_between(model, draws, nodes, arcs - nodes,
                     lambda begin, end: stairs(draws, 0, pieces, 3, draws.between(-5000, 5000), 4000 // pieces))
        return model
    return make


def signed(draws):
    """Every curve without ends and with slopes of both signs, but around the tensions of some potential: so there is a plan."""
    model = nodes_of(balanced(draws, 2000, 1000))
    prices = [draws.between(-5000, 5000) for _ in range(2000)]
    ring_around(model, draws, prices)
    arcs_between(model, draws, 2000, 8000, lambda begin, end: around(draws, prices[end] - prices[begin], 1000, 1000))
    return model


def skewed(draws):
    """Amounts and prices of every magnitude, and few nodes with most of the arcs."""
    supplies = [draws.magnitude(14) * draws.one_of((-1, 1)) for _ in range(1999)]
    assert abs(sum(supplies)) <= 1000000, "the last supply can't even out the others"
    model = nodes_of(supplies + [-sum(supplies)])
    ring_round(model, draws, 2000, 500000)
    for number in range(8000):
        begin = draws.below(2000) * draws.below(2000) // 2000
        end = draws.below(2000) * draws.below(2000) // 2000
        end = end if end != begin else (end + 1) % 2000
        items = stairs(draws, 0, draws.between(1, 3), draws.magnitude(17), draws.magnitude(18), draws.magnitude(17))
        model.arc(f"c{number + 1}", name_of(begin), name_of(end), items)
    return model


def one_source(draws):
    wants = [draws.between(1, 500) for _ in range(1999)]
    model = nodes_of([sum(wants)] + [-want for want in wants])
    ring_round(model, draws, 2000, 20000)
    arcs_between(model, draws, 2000, 8000, lambda begin, end: short(draws, 5000, 100))
    return model


def hub(draws):
    """Every node has an arc to the hub and one from it, which are dearer than the arcs among the others."""
    model = nodes_of(balanced(draws, 2000, 1000))
    for place in range(1, 2000):
        for begin, end in ((place, 0), (0, place)):
            model.arc(f"h{model.arcs + 1}", name_of(begin), name_of(end), [0, draws.between(500, 1500), UP])
    arcs_between(model, draws, 2000, 10000 - model.arcs, lambda begin, end: short(draws, 500, 500))
    return model


def market(draws):
    """Every supply has a curve: what can be sold and bought at rising prices."""
    model = Model()
    for place in range(2000):
        slope = draws.between(-5000, 5000)
        model.node(name_of(place), stairs(draws, draws.between(-1000, 0), draws.between(1, 4), 800, slope, 2000))
    ring_round(model, draws, 2000, 1000)
    arcs_between(model, draws, 2000, 8000, lambda begin, end: short(draws, 500, 500))
    return model


def must_carry(draws):
    """Domains away from 0: arcs that must carry something, built round a flow that fits."""
    flows, ends, supplies = [], [], [0] * 2000
    for _ in range(10000):
        begin, end = two_places(draws, 2000)
        flow = draws.between(-5000, 5000)
        supplies[begin] += flow
        supplies[end] -= flow
        flows.append(flow)
        ends.append((begin, end))
    model = nodes_of(supplies)
    for number, (flow, (begin, end)) in enumerate(zip(flows, ends)):
        items = stairs(draws, flow - draws.between(0, 1000), draws.between(1, 3), 1000, draws.between(-500, 500), 300)
        items = items if items[-1] >= flow else items + [items[-2] + 100, flow]
        model.arc(f"c{number + 1}", name_of(begin), name_of(end), items, draws.between(-1000, 1000))
    return model


def no_flow_short(draws):
    """Much less capacity than is wanted, all over."""
    model = nodes_of(balanced(draws, 2000, 1000))
    arcs_between(model, draws, 2000, 10000, lambda begin, end: short(draws, 50, 1000))
    return model


def no_flow_hidden(draws):
    """Two halves with rings of their own, where what one half wants of the other is one more than the arcs between them can carry."""
    model = Model()
    between = [draws.between(1, 1000) for _ in range(500)]
    first = balanced(draws, 999, 1000)
    second = balanced(draws, 999, 1000)
    sent = sum(between) + 1
    for half, (supplies, extra) in enumerate(((first, sent), (second, -sent))):
        last = extra - sum(supplies)
        for place, supply in enumerate(supplies + [last]):
            model.node(name_of(half * 1000 + place), [supply])
    for half in range(2):
        for place in range(1000):
            begin, end = half * 1000 + place, half * 1000 + (place + 1) % 1000
            model.arc(f"r{begin + 1}", name_of(begin), name_of(end), both_ways(draws.between(1, 1000)))
    for number, room in enumerate(between):
        begin, end = draws.below(1000), 1000 + draws.below(1000)
        model.arc(f"b{number + 1}", name_of(begin), name_of(end), [0, draws.between(1, 1000), room])
    for number in range(7500):
        begin, end = two_places(draws, 1000)
        half = 1000 * draws.below(2)
        model.arc(f"c{number + 1}", name_of(half + begin), name_of(half + end), short(draws, 1000, 1000))
    return model


def no_bound_everywhere(draws):
    """Curves without ends whose slopes fit no potential: circuits that earn at every turn, all over."""
    model = nodes_of(balanced(draws, 2000, 1000))
    ring_round(model, draws, 2000, 1000)
    arcs_between(model, draws, 2000, 8000, lambda begin, end: around(draws, draws.between(-5000, 5000), 1000, 1000))
    return model


def no_bound_hidden(draws):
    """A model with a plan, and one circuit of 500 arcs without an end that earns 1 at every turn."""
    prices = [draws.between(-5000, 5000) for _ in range(2000)]
    model = nodes_of(balanced(draws, 2000, 1000))
    ring_around(model, draws, prices)
    arcs_between(model, draws, 2000, 7500, lambda begin, end: around(draws, prices[end] - prices[begin], 1000, 1000))
    on_circuit = draws.shuffled(range(2000))[:500]
    for number, begin in enumerate(on_circuit):
        end = on_circuit[(number + 1) % 500]
        tension = prices[end] - prices[begin] - (1 if number == 0 else 0)
        model.arc(f"e{number + 1}", name_of(begin), name_of(end), [0, tension, UP])
    return model


def doubling(draws):
    """Prices that double from one kind of arc to the next."""
    model = nodes_of(balanced(draws, 2000, 1000))
    ring_round(model, draws, 2000, 1000000)
    arcs_between(model, draws, 2000, 8000, lambda begin, end: [0, 2**draws.below(19), draws.between(1, 1000), 2**19, 2000])
    return model


def zadeh(count):
    """N. Zadeh's network (1973), on which methods that go by the best reduced cost take exponentially many steps."""
    def amount(place):
        return (1, 3)[place] if place < 2 else 2**place + 2**(place - 2)

    def make(draws):
        total = sum(amount(place) for place in range(count))
        model = Model()
        model.node("s", [total])
        model.node("t", [-total])
        for place in range(count):
            model.node(f"a{place}")
            model.node(f"b{place}")
        for place in range(count):
            model.arc(f"s{place}", "s", f"a{place}", [0, 0, amount(place)])
            model.arc(f"t{place}", f"b{place}", "t", [0, 0, amount(place)])
        for begin in range(count):
            for end in range(count):
                if begin != end:
                    model.arc(f"c{begin}.{end}", f"a{begin}", f"b{end}", [0, 2**max(begin, end) - 1, UP])
        model.arc("dear", "s", "t", [0, 1000000, UP])
        return model
    return make


# name, seed, maker, belongs to the quick run
CLASSES = [
    ("trial 1", 1, trial(1), True),
    ("trial 2", 2, trial(2), True),
    ("random", 11, random(2000, 10000), False),
    ("dense", 12, random(200, 10000), False),
    ("grid", 13, grid(50, 40, scattered, 20), False),
    ("grid, across", 14, grid(50, 40, across, 200), False),
    ("ring", 15, ring, False),
    ("path", 16, path, False),
    ("transport", 17, transport(50, 200), False),
    ("assignment", 18, assignment(100, 1000), False),
    ("lists of 100", 19, long_lists(100, 400, 2000), False),
    ("lists of 800", 20, long_lists(800, 50, 300), False),
    ("signed", 21, signed, False),
    ("skewed", 22, skewed, False),
    ("one source", 23, one_source, False),
    ("hub", 24, hub, False),
    ("market", 25, market, False),
    ("must carry", 26, must_carry, False),
    ("no flow, short", 27, no_flow_short, False),
    ("no flow, hidden", 28, no_flow_hidden, False),
    ("no bound, all over", 29, no_bound_everywhere, False),
    ("no bound, hidden", 30, no_bound_hidden, False),
    ("doubling", 31, doubling, False),
    ("zadeh 18", 32, zadeh(18), True),
    ("limits: short", 41, limits.short_curves, False),
    ("limits: long", 42, limits.long_curves, False),
    ("limits: no ends", 43, limits.no_ends, False),
    ("limits: grid", 44, grid(100, 100, scattered, 20), False),
    ("limits: ring", 45, limits.ring, False),
    ("limits: path", 46, limits.path, False),
    ("limits: lanes", 47, limits.lanes(200, 1000, 40), False),
    ("limits: numbers", 48, limits.numbers, False),
]
