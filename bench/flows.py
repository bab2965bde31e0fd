"""Networks for `maxflow` from their first node to their last, without supplies: what an arc can carry is all that counts."""

from parts import arcs_between, name_of, nodes_of


def one_piece(draws, most):
    return [0, draws.between(1, 100), draws.between(1, most)]


def random(nodes, arcs):
    """Twenty of the arcs leave the first node and twenty enter the last, so that these alone don't decide."""
    def make(draws):
        model = nodes_of([0] * nodes)
        for place in range(20):
            model.arc(f"s{place + 1}", name_of(0), name_of(1 + draws.below(nodes - 2)), one_piece(draws, 5000))
            model.arc(f"t{place + 1}", name_of(1 + draws.below(nodes - 2)), name_of(nodes - 1), one_piece(draws, 5000))
        arcs_between(model, draws, nodes, arcs - 40, lambda begin, end: one_piece(draws, 1000))
        return model
    return make


def grid(rows, columns):
    """Arcs both ways between neighbours; the first node is before the first column, the last one behind the last."""
    def make(draws):
        model = nodes_of([0] * (rows * columns + 2))
        last = rows * columns + 1
        for row in range(rows):
            for column in range(columns):
                here = 1 + row * columns + column
                for there, is_there in ((here + 1, column + 1 < columns), (here + columns, row + 1 < rows)):
                    for begin, end in ((here, there), (there, here)):
                        if is_there:
                            model.arc(f"c{model.arcs + 1}", name_of(begin), name_of(end), one_piece(draws, 1000))
            model.arc(f"s{row + 1}", name_of(0), name_of(1 + row * columns), one_piece(draws, 2000))
            model.arc(f"t{row + 1}", name_of(row * columns + columns), name_of(last), one_piece(draws, 2000))
        return model
    return make


def transport(plants, shops):
    """Every plant to every shop; the first node is before the plants, the last one behind the shops."""
    def make(draws):
        model = nodes_of([0] * (plants + shops + 2))
        for plant in range(plants):
            model.arc(f"p{plant + 1}", name_of(0), name_of(1 + plant), one_piece(draws, 1000 * shops // plants))
            for shop in range(shops):
                model.arc(f"c{plant + 1}.{shop + 1}", name_of(1 + plant), name_of(1 + plants + shop), one_piece(draws, 40))
        for shop in range(shops):
            model.arc(f"d{shop + 1}", name_of(1 + plants + shop), name_of(plants + shops + 1), one_piece(draws, 1000))
        return model
    return make


def bottlenecks(nodes):
    """A path with two arcs from each node to the next, and one back; each part is a little narrower than the one before."""
    def make(draws):
        model = nodes_of([0] * nodes)
        room = 1000 * nodes
        for place in range(nodes - 1):
            room -= draws.between(1, 900)
            half = draws.between(1, room - 1)
            here, there = name_of(place), name_of(place + 1)
            model.arc(f"a{place + 1}", here, there, [0, 1, half])
            model.arc(f"b{place + 1}", here, there, [0, 2, room - half])
            model.arc(f"r{place + 1}", there, here, one_piece(draws, 1000))
        return model
    return make


# name, seed, function of draws
FLOWS = [
    ("maxflow: random", 71, random(2000, 10000)),
    ("maxflow: grid", 72, grid(40, 50)),
    ("maxflow: transport", 73, transport(50, 200)),
    ("maxflow: bottlenecks", 74, bottlenecks(2000)),
    ("maxflow: limits, random", 75, random(10000, 50000)),
    ("maxflow: limits, bottlenecks", 76, bottlenecks(10000)),
]
