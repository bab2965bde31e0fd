"""A model in whole numbers and its twin with decimals, which counts the same units: each command must say the same of both, but for the point.

The twin's text is written loosely, so that what reads numbers is compared too; one with a wrong number must be refused at its line; and what
`convert` prints is computed here once more.
"""

from decimals import PLAIN, SUMS, answer_at, converted, drawn_scale, printed, printed_items, same_units, scale_and_entries, verdict_at
from processes import run
from programs import PROGRAM
from spellings import loose, spoilt


class Twins:
    """A model's file, its twin's, and beside each a certificate, one with a wrong number, and changes."""

    def __init__(self, path, text, certificate, draws, limit):
        self.draws = draws
        self.limit = limit
        self.text = text
        self.entries = scale_and_entries(text)[1]
        self.scale = drawn_scale(draws)
        self.kind = certificate.split("\n")[0].split(" ")[-1]
        self.paths = (path, path + ".twin")
        self.twin = same_units(text, self.scale)
        put(self.paths[1], loose(draws, self.twin))
        for file, scale in zip(self.paths, (PLAIN, self.scale)):
            put(file + ".cert", answer_at(certificate, scale))
            put(file + ".wrong", answer_at(with_wrong_number(certificate), scale))
            put(file + ".changes", self.changes(scale))

    def changes(self, scale):
        """Every arc gets the curve of the arc before it, the first that of the last."""
        arcs = [entry for entry in self.entries if entry.head[0] == "arc"]
        lines = ["changes 1"]
        for arc, other in zip(arcs, arcs[-1:] + arcs[:-1]):
            base = ["base", printed(other.base, scale.cost)] if other.base else []
            lines.append(" ".join(arc.head[:2] + printed_items(other.items, scale.flow, scale.tension) + base))
        return "\n".join(lines) + "\n"

    def commands(self, path):
        nodes = [entry.head[1] for entry in self.entries if entry.head[0] == "node"]
        arcs = [entry.head[1] for entry in self.entries if entry.head[0] == "arc"]
        commands = [["solve", path], ["feasible", path], ["tableau", path], ["resolve", path, path + ".changes"]]
        commands += [[command, path, path + end] for command in ("check", "pieces") for end in (".cert", ".wrong")]
        commands += [["curve", path, arc] for arc in arcs[:2] + ["none.such"]]
        if len(nodes) > 1:
            commands += [[command, path, nodes[0], nodes[1]] for command in ("maxflow", "maxtension")]
        return commands

    def faults(self):
        faults = []
        for words, twins in zip(*map(self.commands, self.paths)):
            plain, other = self.ended(words), self.ended(twins)
            right = verdict_at(answer_at(plain.text, self.scale), self.kind, self.scale)
            faults += self.differs(twins, other, plain.status, right)
        return faults + self.faults_of_texts() + self.faults_of_convert()

    def faults_of_texts(self):
        """A certificate whose number lacks its last decimal, and a model with a wrong number."""
        faults = []
        if getattr(self.scale, SUMS[self.kind]) > 0:
            path = self.paths[1] + ".short"
            lines = read(self.paths[1] + ".cert").split("\n")
            put(path, "\n".join([lines[0], lines[1][:-1]] + lines[2:]))
            words = ["check", self.paths[1], path]
            faults += self.differs(words, self.ended(words), 3, "rejected bad-text line 2\n")
        for text in (self.text, self.twin):
            wrong = spoilt(self.draws, text)
            if wrong:
                put(self.paths[1] + ".bad", wrong[0])
                words = ["solve", self.paths[1] + ".bad"]
                faults += self.differs(words, self.ended(words), 5, wrong[1])
        return faults

    def faults_of_convert(self):
        """The model at few decimals, that model at any, and the twin at its own scale and at another one."""
        few = [self.draws.below(3), self.draws.below(3)]
        any_scale = drawn_scale(self.draws)
        wanted = [any_scale.flow, any_scale.tension]
        faults = self.converts(self.paths[0], self.text, *few)
        further = converted(self.text, *few)
        if further:
            put(self.paths[0] + ".few", further)
            faults += self.converts(self.paths[0] + ".few", further, *wanted)
        for decimals in ([self.scale.flow, self.scale.tension], wanted):
            faults += self.converts(self.paths[1], self.twin, *decimals)
        return faults

    def converts(self, path, text, flow, tension):
        right = converted(text, flow, tension)
        words = ["convert", path, str(flow), str(tension)]
        return self.differs(words, self.ended(words), 0 if right else 14, right or "not converted\n")

    def ended(self, words):
        return run([PROGRAM] + words, self.limit)

    def differs(self, words, ended, status, text):
        """A run that met its limit is no fault."""
        if ended.status is None or status is None or (ended.status, ended.text) == (status, text):
            return []
        return [f"{' '.join(words)} ends with {ended.status}, {ended.text[:200]!r}; right is {status}, {text[:200]!r}"]


def with_wrong_number(certificate):
    """One more in the first line that has a number."""
    lines = certificate.split("\n")
    keyword, number = lines[1].split(" ")
    return "\n".join([lines[0], f"{keyword} {int(number) + 1}"] + lines[2:])


def put(path, text):
    # a CR at the end of a line stays as it is
    with open(path, "w", newline="") as file:
        file.write(text)


def read(path):
    with open(path, newline="") as file:
        return file.read()
