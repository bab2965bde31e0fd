"""Solves many small random models with monotropic and its peers and compares: kind, cost, `check`, and the status of `feasible`.

Of some of them every command must say the same of the model and of its twin with decimals, but for the point. A model on which something
differs, or which isn't answered within the limit, is kept in bench/out/differences. Exit status 1 where something differs.
"""

import argparse
import collections
import os
import shutil
import sys
import time

from draws import Draws
from processes import run
from programs import OUT, PROGRAM, build_peers, build_program, is_answer, peer_words, said_by_program
from small import small
from twins import Twins

KEPT = os.path.join(OUT, "differences")
BATCH = 200
STATUS = {"optimal": 0, "cut": 1, "unbounded": 2}


def words_of():
    parser = argparse.ArgumentParser(prog="bench/differ", description=__doc__)
    parser.add_argument("--models", type=int, default=2000, help="how many models (2,000)")
    parser.add_argument("--seed", type=int, default=1, help="the first model's seed; the others follow (1)")
    parser.add_argument("--nodes", type=int, default=8, help="nodes at most (8)")
    parser.add_argument("--arcs", type=int, default=14, help="arcs at most (14)")
    parser.add_argument("--limit", type=float, default=5, help="seconds that a run may take (5)")
    parser.add_argument("--twins", type=int, default=4, help="compare the twin with decimals of one model in so many, of none with 0 (4)")
    parser.add_argument("--peers", default="simplex,glpk,kilter", help="which peers (simplex,glpk,kilter)")
    return parser.parse_args()


def heard_from(peer, paths):
    """A peer answers all models of a batch in one process."""
    done = run(peer_words(peer, paths), 600)
    lines = done.text.split("\n")[:-1]
    if done.status != 0 or len(lines) != len(paths):
        sys.exit(f"bench: {peer} ended with {done.status} on one of {paths[0]} .. {paths[-1]}")
    return lines


def faults_of(path, seed, options, heard):
    """What monotropic says of the model, how long it took, and what is wrong with it."""
    solved = run([PROGRAM, "solve", path], options.limit)
    said = said_by_program(solved)
    if said == "late":
        return said, solved.seconds, []
    faults = [f"{peer} says {theirs}" for peer, theirs in heard.items() if is_answer(theirs) and theirs != said]
    with open(path + ".cert", "w") as file:
        file.write(solved.text)
    verdict = run([PROGRAM, "check", path, path + ".cert"], options.limit)
    if verdict.status != 0 or not verdict.text.startswith("accepted"):
        faults.append(f"check says {verdict.text.strip()}, status {verdict.status}")
    feasible = run([PROGRAM, "feasible", path], options.limit)
    if feasible.status is not None and feasible.status != STATUS.get(said.split(" ")[0]):
        faults.append(f"feasible ends with {feasible.status}")
    if options.twins and seed % options.twins == 0 and is_answer(said):
        with open(path) as file:
            faults += Twins(path, file.read(), solved.text, Draws(seed * 7919 + 1), options.limit).faults()
    return said, solved.seconds, faults


def kept(path, seed, why):
    os.makedirs(KEPT, exist_ok=True)
    shutil.copy(path, os.path.join(KEPT, f"{why}-{seed}.net"))


def main():
    options = words_of()
    peers = options.peers.split(",")
    build_peers(peers)
    build_program()
    folder = os.path.join(OUT, "small")
    os.makedirs(folder, exist_ok=True)
    kinds, slowest, wrong, begin = collections.Counter(), (0, 0), 0, time.monotonic()
    for first in range(options.seed, options.seed + options.models, BATCH):
        seeds = range(first, min(first + BATCH, options.seed + options.models))
        paths = []
        for seed in seeds:
            path = os.path.join(folder, f"{seed - first}.net")
            with open(path, "w") as file:
                file.write(small(Draws(seed * 7919), options.nodes, options.arcs).text())
            paths.append(path)
        by_peer = {peer: heard_from(peer, paths) for peer in peers}
        for place, (seed, path) in enumerate(zip(seeds, paths)):
            said, seconds, faults = faults_of(path, seed, options, {peer: by_peer[peer][place] for peer in peers})
            kinds[said.split(" ")[0]] += 1
            slowest = max(slowest, (seconds, seed))
            if faults:
                wrong += 1
                kept(path, seed, "wrong")
                print(f"WRONG model {seed}: monotropic says {said}; " + "; ".join(faults), flush=True)
            elif said == "late":
                kept(path, seed, "late")
    told = ", ".join(f"{count} {kind}" for kind, count in sorted(kinds.items()))
    print(f"{sum(kinds.values())} models: {told}; {wrong} wrong; the slowest took {slowest[0]:.3f} s (model {slowest[1]}); "
          f"{time.monotonic() - begin:.0f} s in all")
    if wrong or kinds["late"]:
        print(f"kept in {KEPT}")
    sys.exit(1 if wrong else 0)


main()
