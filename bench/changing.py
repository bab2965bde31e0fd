"""Changes single curves of a model, a thousand times, and measures `resolve` beside solving each changed model anew.

Reading is left out: from `resolve` what it takes with no change, from each fresh solve what the same program takes to read that model
alone, and the same of LEMON. Kind and number of every state that is solved anew are compared. Exit status 1 where they differ.
"""

import argparse
import os
import sys

import machine
from classes import CLASSES
from draws import Draws
from moves import Moves
from processes import run
from programs import OUT, PEERS, PROGRAM, build_peers, build_program, is_answer, peer_words, said_by_program
from table import markdown, milliseconds, ratio

NAMES = ("random", "market", "one source", "grid", "hub", "dense", "transport", "assignment")
SPEED = os.path.join(os.path.dirname(os.path.dirname(os.path.abspath(__file__))), "docs", "SPEED.md")
BEGIN, END = "<!-- bench/changes writes from here -->\n", "<!-- to here by bench/changes -->\n"
WORDS = {"optimal": "optimal", "cut": "cut", "circuit": "unbounded"}


def words_of():
    parser = argparse.ArgumentParser(prog="bench/changes", description=__doc__)
    parser.add_argument("--count", type=int, default=1000, help="how many changes, 1,000 at most (1,000)")
    parser.add_argument("--every", type=int, default=10, help="solve anew after each change of this many, and multiply (10)")
    parser.add_argument("--rounds", type=int, default=3, help="runs of each; the best counts (3)")
    parser.add_argument("--limit", type=float, default=600, help="seconds that a run may take (600)")
    parser.add_argument("--class", dest="only", action="append", help="only the classes whose name has this word; may be repeated")
    parser.add_argument("--write", action="store_true", help="put the table into docs/SPEED.md")
    return parser.parse_args()


class Case:
    """The files of one class: the model, its changes, none, and the models after some of the changes."""

    def __init__(self, name, seed, make, options):
        self.folder = os.path.join(OUT, "changes")
        os.makedirs(self.folder, exist_ok=True)
        draws = Draws(seed)
        model = make(draws)
        self.path = self.written("first.net", model.text())
        self.none = self.written("none.changes", "changes 1\n")
        moves = Moves(model, draws, carriers_in(run([PROGRAM, "solve", self.path], options.limit).text))
        lines, self.later = [], {}
        while len(lines) < options.count:
            lines += [line.change() for line in moves.next(options.count - len(lines))]
            # a model between the two changes of a moved supply is never among those that are solved anew
            if len(lines) % options.every == 0:
                self.later[len(lines)] = self.written(f"after-{len(lines)}.net", moves.text())
        self.changes = self.written("all.changes", "changes 1\n" + "\n".join(lines) + "\n")

    def written(self, name, text):
        path = os.path.join(self.folder, name)
        with open(path, "w") as file:
            file.write(text)
        return path


def carriers_in(certificate):
    """The names of the arcs that carry something."""
    rows = (line.split(" ") for line in certificate.split("\n"))
    return {row[1] for row in rows if row[0] == "arc" and row[2] != "0"}


def best(words, rounds, limit):
    """The least time of some runs, and what the last one wrote."""
    runs = [run(words, limit) for _ in range(rounds)]
    return min(done.seconds for done in runs), runs[-1]


def measured(case, options):
    """Milliseconds of `resolve` and of the fresh solves of both programs, what `resolve` says of the states, and what is wrong."""
    whole, done = best([PROGRAM, "resolve", case.path, case.changes], options.rounds, options.limit)
    start, _ = best([PROGRAM, "resolve", case.path, case.none], options.rounds, options.limit)
    states = {int(row[1]): f"{WORDS[row[2]]} {row[3]}" for row in (line.split(" ") for line in done.text.split("\n")) if row[0] == "state"}
    fresh, heard, paths = 0, {}, list(case.later.values())
    for count, path in case.later.items():
        solving, solved = best([PROGRAM, "solve", path], options.rounds, options.limit)
        reading, _ = best([PROGRAM, "curve", path, "no.such.arc"], options.rounds, options.limit)
        fresh += solving - reading
        heard[count] = said_by_program(solved)
    theirs, simplex = best(peer_words("simplex", paths), options.rounds, options.limit)
    reading, _ = best(peer_words("read", paths), options.rounds, options.limit)
    scale = options.count / len(paths)
    faults = differences(states, heard, dict(zip(case.later, simplex.text.split("\n"))), options.count)
    return whole - start, fresh * scale, (theirs - reading) * scale, states, faults


def differences(states, heard, theirs, count):
    faults = [] if len(states) == count + 1 else [f"{len(states)} states"]
    for at, said in heard.items():
        ours = states.get(at, "nothing")
        ours = ours if ours.startswith("optimal") else ours.split(" ")[0]
        if not is_answer(said) or not ours == said == theirs[at]:
            faults.append(f"after {at}: resolve says {ours}, solve {said}, LEMON {theirs[at]}")
    return faults


def put_into_document(text):
    with open(SPEED) as file:
        page = file.read()
    front, rest = page.split(BEGIN)
    with open(SPEED, "w") as file:
        file.write(front + BEGIN + text + END + rest.split(END)[1])


def main():
    options = words_of()
    build_peers(["simplex"])
    PEERS["read"] = PEERS["simplex"]
    build_program()
    heads = ["model", "states without a plan", "`resolve`", "`solve` each anew", "to `solve`", "LEMON NetworkSimplex each anew", "to LEMON"]
    stand, rows, faults = machine.stand(), [], []
    for name, seed, make, _ in CLASSES:
        if name not in NAMES or options.only and not any(word in name for word in options.only):
            continue
        warm, fresh, theirs, states, more = measured(Case(name, seed, make, options), options)
        faults += [f"{name}: {fault}" for fault in more]
        without = sum(not said.startswith("optimal") for said in states.values())
        rows.append([name, str(without), milliseconds(warm), milliseconds(fresh), ratio(warm, fresh), milliseconds(theirs), ratio(warm, theirs)])
        print("  ".join(rows[-1]), flush=True)
    text = (f"Milliseconds of processor time for {options.count:,} changes, reading left out; the best of {options.rounds} runs.\n\n{stand}\n"
            + markdown(heads, rows))
    print("\n" + text)
    if options.write:
        put_into_document(text)
    for fault in faults:
        print("WRONG " + fault)
    sys.exit(1 if faults else 0)


main()
