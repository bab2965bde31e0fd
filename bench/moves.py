"""Changes of a model's curves, one after the other: a price raised, a capacity cut, a supply moved from one node to another.

Arcs are taken from those that carry something in the first plan, since a dearer or narrower arc that carries nothing changes no plan.
"""

from curves import DOWN, UP


class Line:
    """The line of a node or an arc: what stands before its list, the list, and the base behind it."""

    def __init__(self, text):
        words = text.split(" ")
        self.is_arc = words[0] == "arc"
        self.name = words[1]
        self.head = words[:4] if self.is_arc else words[:2]
        rest = words[len(self.head):]
        cut = rest.index("base") if "base" in rest else len(rest)
        self.items = [word if word in (UP, DOWN) else int(word) for word in rest[:cut]]
        self.base = rest[cut:]

    def text(self):
        return self._with(self.head)

    def change(self):
        """The line of a changes text that makes the curve what it is here."""
        return self._with(self.head[:2])

    def _with(self, head):
        return " ".join(head + list(map(str, self.items)) + self.base)


class Moves:
    """A model whose curves change."""

    def __init__(self, model, draws, carriers):
        self.draws = draws
        self.lines = [Line(text) for text in model.lines[1:]]
        self.carriers = [line for line in self.lines if line.is_arc and line.name in carriers]
        self.nodes = [line for line in self.lines if not line.is_arc and any(line.items)]
        self.signs = {line.name: sign_of(line.items) for line in self.nodes}

    def text(self):
        return "network 1\n" + "\n".join(line.text() for line in self.lines) + "\n"

    def next(self, left):
        """The lines of one change, or of two where a supply moves and as many are left: what one node has more another has less."""
        kind = self.draws.below(4 if left > 1 else 2)
        if kind < 2:
            line = self.draws.one_of(self.carriers)
            (self.raise_price if kind == 0 else self.cut_capacity)(line)
            return [line]
        return self.move_supply()

    def raise_price(self, line):
        """Each unit more is dearer, on either side of 0."""
        items = line.items
        slopes = range(1, len(items), 2)
        rise = self.draws.between(1, 1 + max((abs(items[at]) for at in slopes), default=0) // 2)
        for at in slopes:
            is_backwards = items[at + 1] != UP and items[at + 1] <= 0
            items[at] += -rise if is_backwards else rise

    def cut_capacity(self, line):
        """A quarter of what it can carry is lost; an arc without an end becomes dearer."""
        items = line.items
        if items[-1] == UP or items[0] == DOWN or items[-1] <= 0:
            self.raise_price(line)
            return
        end = max(items[-1] - max(items[-1] // 4, 1), items[0])
        while len(items) > 1 and items[-3] >= end:
            del items[-2:]
        items[-1] = end

    def move_supply(self):
        """The first node has more, the second less; no node changes sides between giving and taking."""
        while True:
            more, less = self.draws.one_of(self.nodes), self.draws.one_of(self.nodes)
            amount = self.draws.between(1, 1 + min(reach_of(more.items), reach_of(less.items)) // 4)
            if more is not less and self.may_move(more, amount) and self.may_move(less, -amount):
                break
        for line, by in ((more, amount), (less, -amount)):
            line.items[::2] = [end if end in (UP, DOWN) else end + by for end in line.items[::2]]
        return [more, less]

    def may_move(self, line, amount):
        return len(line.items) > 1 or (line.items[0] + amount) * self.signs[line.name] >= 0


def sign_of(items):
    return 0 if len(items) > 1 else 1 if items[0] > 0 else -1


def reach_of(items):
    """The amount of a fixed supply, or how far the others reach."""
    ends = [end for end in items[::2] if end not in (UP, DOWN)]
    return abs(ends[0]) if len(items) == 1 else ends[-1] - ends[0]
