"""Other spellings of a model's text: such as spell the same model, and such as spell none, with the fault that is right."""

import re

from curves import UP
from decimals import NUMBER_MOST, printed, scale_and_entries, turns

POINTED = re.compile(r"[+-]?[0-9]+(\.[0-9]+)?")


def loose_number(draws, word):
    """The same number, with fewer digits behind its point, more before it, or a sign."""
    sign, digits = ("-", word[1:]) if word[0] == "-" else (draws.one_of(["", "+"]), word)
    whole, _, further = digits.partition(".")
    while further.endswith("0") and draws.happens(1, 2):
        further = further[:-1]
    return sign + "0" * draws.below(3) + whole + ("." + further if further else "")


def loose(draws, text):
    """Numbers in other forms, further spaces and tabs, comments, and lines without words."""
    lines = []
    for line in text.split("\n")[:-1]:
        words = line.split(" ")
        if words[0] in ("node", "arc"):
            names = 2 if words[0] == "node" else 4
            words[names:] = [draws.one_of([UP, "inf"]) if word == UP else loose_number(draws, word) if POINTED.fullmatch(word) else word
                             for word in words[names:]]
        lines.append(draws.one_of([" ", "\t ", "  "]).join(words) + draws.one_of(["", "", " # 0.5", "\r"]))
        if draws.happens(1, 8):
            lines.append(draws.one_of(["", "# none", " "]))
    return "\n".join(lines) + "\n"


def numbers_of(text):
    """Where numbers stand in the printed form of a model: line, place of the word in it, decimals of the place."""
    scale, entries = scale_and_entries(text)
    front = len(scale.front())
    places = []
    for number, entry in enumerate(entries, front + 1):
        listed = turns(entry.items, scale.flow, scale.tension)
        places += [(number, len(entry.head) + at, decimals) for at, (item, decimals) in enumerate(listed) if isinstance(item, int)]
        places += [(number, len(entry.head) + len(listed) + 1, scale.cost)] if entry.base else []
    return places


def spoilt(draws, text):
    """A text with one wrong number, and the line that refuses it; None where there is no number."""
    places = numbers_of(text)
    if not places:
        return None
    number, at, decimals = draws.one_of(places)
    lines = text.split("\n")
    words = lines[number - 1].split(" ")
    right = words[at]
    words[at], fault = draws.one_of([
        (right + ("0" if decimals else ".0"), "number"),
        (right.split(".")[0] + ".", "number"),
        (right.split(".")[0] + ".-1", "number"),
        (printed(NUMBER_MOST + 1, decimals), "limit"),
        (printed(-10 * NUMBER_MOST, decimals), "limit"),
    ])
    lines[number - 1] = " ".join(words)
    return "\n".join(lines), f"model line {number}: {fault}\n"
