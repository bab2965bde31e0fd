"""Tables in markdown."""

import math


def markdown(heads, rows):
    """The first column is text, the others are numbers."""
    lines = ["| " + " | ".join(heads) + " |", "|---|" + "---:|" * (len(heads) - 1)]
    lines += ["| " + " | ".join(row) + " |" for row in rows]
    return "\n".join(lines) + "\n"


def milliseconds(seconds):
    if seconds is None:
        return "-"
    ms = 1000 * seconds
    return f"{ms:.1f}" if ms < 100 else f"{ms:,.0f}"


def ratio(first, second):
    return "-" if first is None or second is None else f"{first / second:.2f}"


def geometric_mean(numbers):
    numbers = list(numbers)
    return math.exp(sum(math.log(number) for number in numbers) / len(numbers)) if numbers else None
