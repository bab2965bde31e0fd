"""Texts with decimals: models, certificates and answers at a scale, each made from the one in whole numbers that says the same of units.

A scale says how many decimals amounts and prices have. Inside the program a number is whole and counts units of its last decimal; so a model of
version 1 and the one of version 2 with the same units have the same answers, but for the point. Python's whole numbers are exact, and
nothing here is computed with others.
"""

import re

from curves import DOWN, UP

DECIMALS_MOST = 6
NUMBER_MOST = 10**9


class Scale:
    """The version of a model's text, the decimals of its amounts and those of its prices; a cost has both together."""

    def __init__(self, version, flow, tension):
        self.version = version
        self.flow = flow
        self.tension = tension
        self.cost = flow + tension

    def front(self):
        return [f"network {self.version}"] + ([f"decimals {self.flow} {self.tension}"] if self.version == 2 else [])


PLAIN = Scale(1, 0, 0)


def drawn_scale(draws):
    return Scale(2, draws.between(0, DECIMALS_MOST), draws.between(0, DECIMALS_MOST))


# Numbers.


def printed(units, decimals):
    """The one printed form of so many units of 10^-decimals."""
    digits = str(abs(units)).rjust(decimals + 1, "0")
    point = len(digits) - decimals
    return ("-" if units < 0 else "") + digits[:point] + ("." + digits[point:] if decimals else "")


def units_of(word, decimals):
    """The units that a number of a text counts; it has at most so many digits behind its point."""
    digits = word[1:] if word[0] in "+-" else word
    whole, _, further = digits.partition(".")
    units = int(whole + further.ljust(decimals, "0"))
    return -units if word[0] == "-" else units


def in_other_units(units, before, after):
    """The same number in units of 10^-after; None where it isn't whole there, or is beyond the limit."""
    count, rest = divmod(abs(units) * 10**after, 10**before)
    if rest or count > NUMBER_MOST:
        return None
    return -count if units < 0 else count


# Models.


class Entry:
    """A node or an arc: what stands before its list, the items in units, and the base."""

    def __init__(self, head, items, base):
        self.head = head
        self.items = items
        self.base = base


def turns(items, here, following):
    """The items, each with what belongs to its place: points and slopes stand in turn."""
    return [(item, (here, following)[place % 2]) for place, item in enumerate(items)]


def is_infinite(item):
    return item in (UP, DOWN)


def entry_of(line, scale):
    words = line.split()
    names = 2 if words[0] == "node" else 4
    head, rest = words[:names], words[names:]
    cut = rest.index("base") if "base" in rest else len(rest)
    items = [UP if word == "inf" else word if is_infinite(word) else units_of(word, decimals)
             for word, decimals in turns(rest[:cut], scale.flow, scale.tension)]
    return Entry(head, items or [0], units_of(rest[cut + 1], scale.cost) if cut < len(rest) else 0)


def scale_and_entries(text):
    """Of a text that spells a model."""
    lines = [line for line in (line.split("#")[0].strip() for line in text.split("\n")) if line]
    if lines[0].split() == ["network", "1"]:
        return PLAIN, [entry_of(line, PLAIN) for line in lines[1:]]
    scale = Scale(2, *map(int, lines[1].split()[1:]))
    return scale, [entry_of(line, scale) for line in lines[2:]]


def printed_items(items, here, following):
    return [item if is_infinite(item) else printed(item, decimals) for item, decimals in turns(items, here, following)]


def printed_entry(entry, scale):
    base = ["base", printed(entry.base, scale.cost)] if entry.base else []
    return " ".join(entry.head + printed_items(entry.items, scale.flow, scale.tension) + base)


def printed_model(scale, entries):
    return "\n".join(scale.front() + [printed_entry(entry, scale) for entry in entries]) + "\n"


def same_units(text, scale):
    """The model at another scale whose numbers count as many units: a text that is equal but for the point."""
    return printed_model(scale, scale_and_entries(text)[1])


def without_decimals(text):
    return same_units(text, PLAIN)


def entry_in_other_units(entry, before, after):
    """The same entry, or None where a number isn't whole there, or is beyond the limit."""
    places = turns(entry.items, (before.flow, after.flow), (before.tension, after.tension))
    items = [item if is_infinite(item) else in_other_units(item, *decimals) for item, decimals in places]
    base = in_other_units(entry.base, before.cost, after.cost)
    return None if None in items or base is None else Entry(entry.head, items, base)


def converted(text, flow, tension):
    """What `convert` prints of the model: the same values at another scale, or None where they can't be had there."""
    before, entries = scale_and_entries(text)
    after = Scale(2, flow, tension)
    entries = [entry_in_other_units(entry, before, after) for entry in entries]
    return None if None in entries else printed_model(after, entries)


# Certificates and answers.

# by the part of an answer and the first word of a line in it, the kinds of the numbers at the line's end
KINDS = {
    "optimal": {"cost": ["cost"], "value": ["cost"], "node": ["tension", "flow"], "arc": ["flow"]},
    "cut": {"capacity": ["flow"]},
    "circuit": {"span": ["tension"], "node": ["flow"], "arc": ["flow"]},
    "flow": {"flow": ["flow"], "node": ["flow"], "arc": ["flow"]},
    "tension": {"tension": ["tension"], "node": ["tension"]},
    "maxflow": {"maxflow": ["flow"], "node": ["flow"], "arc": ["flow"]},
    "maxtension": {"maxtension": ["tension"], "node": ["tension"]},
    "pieces": {"piece": ["flow"]},
}
# of what a certificate of that kind comes to
SUMS = {"optimal": "cost", "cut": "flow", "circuit": "tension"}
LISTS = {"curve": ("flow", "tension"), "conjugate": ("tension", "flow")}


def with_point(word, decimals):
    """Words that are no numbers stay."""
    return printed(int(word), decimals) if re.fullmatch("-?[0-9]+", word) else word


def listing_at(words, scale):
    """`curve LIST base B`, or `conjugate LIST base B`."""
    here, following = (getattr(scale, kind) for kind in LISTS[words[0]])
    items = [with_point(word, decimals) for word, decimals in turns(words[1:-2], here, following)]
    return words[:1] + items + [words[-2], with_point(words[-1], scale.cost)]


def line_at(words, part, scale):
    kinds = KINDS.get(part, {}).get(words[0], [])
    front = len(words) - len(kinds)
    return words[:front] + [with_point(word, getattr(scale, kind)) for word, kind in zip(words[front:], kinds)]


def answer_at(text, scale):
    """The answer at a scale, from the one that a command gives to the model of version 1 with the same units."""
    lines, part = [], ""
    for line in text.split("\n"):
        words = line.split(" ")
        if words[0] == "certificate":
            part = words[2]
            words = ["certificate", str(scale.version), part]
        elif words[0] in LISTS:
            words = listing_at(words, scale)
        elif words[0] == "state":
            words = words[:3] + [with_point(words[3], getattr(scale, SUMS[words[2]]))]
        else:
            part = words[0] if words[0] in KINDS else part
            words = line_at(words, part, scale)
        lines.append(" ".join(words))
    return "\n".join(lines)


def verdict_at(line, kind, scale):
    """A line of `check` on a certificate of that kind."""
    words = line.split(" ")
    if words[:2] == ["rejected", "wrong-number"]:
        decimals = getattr(scale, SUMS[kind])
        words[3] = with_point(words[3], decimals)
        words[5] = with_point(words[5].rstrip("\n"), decimals) + "\n"
    return " ".join(words)
