"""A model as it is made here, and its text."""


class Model:
    def __init__(self):
        self.lines = ["network 1"]
        self.nodes = 0
        self.arcs = 0
        self.pieces = 0

    def node(self, name, items=(0,), base=0):
        """A node with the curve of its supply."""
        self.nodes += 1
        self._line(f"node {name}", items, base)

    def arc(self, name, begin, end, items, base=0):
        self.arcs += 1
        self._line(f"arc {name} {begin} {end}", items, base)

    def text(self):
        return "\n".join(self.lines) + "\n"

    def _line(self, head, items, base):
        self.pieces += len(items) // 2
        words = " ".join(map(str, items))
        tail = f" base {base}" if base else ""
        self.lines.append(f"{head} {words}{tail}")
