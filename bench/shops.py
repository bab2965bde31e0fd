"""Tables of plants, shops and lanes for `transport`, each with the model that it stands for, which `solve` and the peers take."""

from model import Model

# plants, shops and lanes of the tables that are measured
TABLES = [("20 plants, 100 shops, 1,000 lanes", 61, 20, 100, 1000), ("200 plants, 1,000 shops, 40,000 lanes", 62, 200, 1000, 40000)]


class Table:
    """The text of the table, and the model that is made beside it."""

    def __init__(self):
        self.lines = ["transport 1"]
        self.model = Model()

    def plant(self, name, pairs):
        self._line(f"plant {name}", pairs)
        self.model.node(name, listed(pairs))

    def shop(self, name, need):
        self.lines.append(f"shop {name} {need}")
        self.model.node(name, [-need])

    def lane(self, name, plant, shop, pairs):
        self._line(f"lane {name} {plant} {shop}", pairs)
        self.model.arc(name, plant, shop, listed(pairs))

    def text(self):
        return "\n".join(self.lines) + "\n"

    def _line(self, head, pairs):
        self.lines.append(head + "".join(f" {size} {price}" for size, price in pairs))


def listed(pairs):
    """Breakpoints and slopes: each price holds up to the sum of the sizes so far."""
    items, total = [0], 0
    for size, price in pairs:
        total += size
        items += [price, total]
    return items


def made(draws, plants, shops, lanes):
    """Each shop has the same count of lanes, from plants in a row; a lane carries twice its share of the shop's need, the second half
    at a higher price, and each plant makes one and a half times what comes to it in the mean."""
    table = Table()
    needs = [draws.between(100, 1000) for _ in range(shops)]
    each = 3 * sum(needs) // (2 * plants) + 1
    for plant in range(plants):
        price = draws.between(1, 300)
        table.plant(f"plant{plant + 1}", [(each, price), (each, price + draws.between(1, 300))])
    for shop, need in enumerate(needs):
        table.shop(f"shop{shop + 1}", need)
    ways = lanes // shops
    for shop, need in enumerate(needs):
        first = draws.below(plants)
        share = 2 * need // ways + 1
        for way in range(ways):
            plant = (first + way) % plants
            price = draws.between(1, 1000)
            table.lane(f"l{shop + 1}.{way + 1}", f"plant{plant + 1}", f"shop{shop + 1}", [(share, price), (share, price + draws.between(1, 500))])
    return table
