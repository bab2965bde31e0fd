"""Refuses each request for memory of each command in turn: status 9 and nothing written, or, where a table that grows is content with
less than it asked for first, the answer that it gives with all memory.

The requests are those that reach the C library while the program runs, first those for its words. Prints how many there are. Then a
larger model is solved in less and less room for the whole process: the whole answer, or status 9 and nothing written. Exit status 1
where something differs.
"""

import argparse
import resource
import sys

from programs import build_program
from torn import COMMANDS, Sandbox, Tally, large_model

MEBIBYTE = 1 << 20
# what a shell, and the loader of programs, end with where there isn't room for a program to start
NOT_STARTED = 127


def refuse_each(sandbox, tally, words):
    title = " ".join(words)
    whole = sandbox.torn(words)
    plain = sandbox.run(words)
    tally.compare(f"{title}, no request refused", whole, plain.status, plain.written)
    spared = 0
    for at in range(1, whole.counts["memory"] + 1):
        ended = sandbox.torn(words, "memory", at, "12")
        is_answered = (ended.status, ended.written) == (whole.status, whole.written)
        is_starved = (ended.status, ended.written) == (9, b"")
        tally.require(f"{title}, request {at} refused: status {ended.status}, {len(ended.written)} bytes", is_answered or is_starved)
        spared += is_answered
    print(f"{title}: {whole.counts['memory']} requests, {spared} of them for more than is needed")


def leave_less(sandbox, tally):
    sandbox.put("large", large_model())
    words = ("solve", "large")
    right = sandbox.run(words)
    answered = starved = 0
    for room in range(2 * MEBIBYTE, 80 * MEBIBYTE, MEBIBYTE):
        ended = sandbox.run(words, preexec_fn=lambda: resource.setrlimit(resource.RLIMIT_AS, (room, room)))
        is_answered = (ended.status, ended.written) == (right.status, right.written)
        is_starved = ended.status in (9, NOT_STARTED) and ended.written == b""
        tally.require(f"solve in {room // MEBIBYTE} MiB: status {ended.status}, {len(ended.written)} bytes", is_answered or is_starved)
        answered += is_answered
        starved += ended.status == 9
    print(f"a larger model in 2 to 79 MiB: {answered} times answered, {starved} times status 9")


def main():
    argparse.ArgumentParser(prog="bench/starve", description=__doc__).parse_args()
    build_program()
    tally = Tally()
    with Sandbox() as sandbox:
        for words, _ in COMMANDS:
            refuse_each(sandbox, tally, words)
        leave_less(sandbox, tally)
    return tally.end()


if __name__ == "__main__":
    sys.exit(main())
