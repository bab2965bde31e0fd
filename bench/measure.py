"""Runs monotropic and its peers on the classes of models, side by side, and prints a table of times and ratios.

Every answer is tested: monotropic's certificate by `monotropic check`, and kind and cost against each peer. Exit status 1 where
an answer is wrong.
"""

import argparse
import os
import sys

import flows
import growth
import machine
import shops
from classes import CLASSES
from draws import Draws
from processes import run
from programs import OUT, PEERS, PROGRAM, build_peers, build_program, is_answer, peer_words, said_by_peer, said_by_program, said_of_flow, said_of_table
from table import geometric_mean, markdown, milliseconds, ratio

SPEED = os.path.join(os.path.dirname(os.path.dirname(os.path.abspath(__file__))), "docs", "SPEED.md")
BEGIN, END = "<!-- bench/run writes from here -->\n", "<!-- to here -->\n"


def words_of():
    parser = argparse.ArgumentParser(prog="bench/run", description=__doc__)
    parser.add_argument("--quick", action="store_true", help="the small models alone, and no growth")
    parser.add_argument("--rounds", type=int, default=5, help="runs of each program on each model; the best counts (5)")
    parser.add_argument("--limit", type=float, default=20, help="seconds that a run may take (20)")
    parser.add_argument("--class", dest="only", action="append", help="only the classes whose name has this word; may be repeated")
    parser.add_argument("--peers", default="simplex,scaling,glpk,kilter", help="which peers (all)")
    parser.add_argument("--write", action="store_true", help="put the tables into docs/SPEED.md")
    parser.add_argument("--models", action="store_true", help="only write the models into bench/out/models")
    return parser.parse_args()


class Measured:
    """The best times of each program on one model, and what is wrong with the answers."""

    def __init__(self, said, best, faults):
        self.said = said
        self.best = best
        self.faults = faults


def measured(path, peers, rounds, limit):
    """Programs take turns, so that what else the machine does falls on all of them. Who met the limit, or takes seconds, runs once."""
    said, best, faults = {}, {}, []
    certificate = path + ".cert"
    for _ in range(rounds):
        for program in ["monotropic"] + peers:
            if said.get(program) == "late" or best.get(program, 0) > 1:
                continue
            if program == "monotropic":
                done = run([PROGRAM, "solve", path], limit)
                heard = said_by_program(done)
                with open(certificate, "w") as file:
                    file.write(done.text)
            else:
                done = run(peer_words(program, [path]), limit)
                heard = said_by_peer(done)
            if said.setdefault(program, heard) != heard and heard != "late":
                faults.append(f"{program} says {said[program]} and then {heard}")
            if is_answer(heard):
                best[program] = min(best.get(program, done.seconds), done.seconds)
    faults += wrong_answers(path, certificate, said, limit)
    return Measured(said, best, faults)


def wrong_answers(path, certificate, said, limit):
    faults = []
    ours = said["monotropic"]
    if ours != "late":
        verdict = run([PROGRAM, "check", path, certificate], limit)
        if not is_answer(ours) or verdict.status != 0 or not verdict.text.startswith("accepted"):
            faults.append(f"monotropic says {ours}, and check says {verdict.text.strip()}")
    answers = {program: heard for program, heard in said.items() if is_answer(heard)}
    if len(set(answers.values())) > 1:
        faults.append("answers differ: " + "; ".join(f"{program} {heard}" for program, heard in answers.items()))
    return faults


def folder():
    place = os.path.join(OUT, "models")
    os.makedirs(place, exist_ok=True)
    return place


def made(name, seed, make):
    model = make(Draws(seed))
    path = os.path.join(folder(), "".join(letter if letter.isalnum() else "-" for letter in name) + ".net")
    with open(path, "w") as file:
        file.write(model.text())
    return model, path


def class_table(classes, peers, rounds, limit):
    heads = ["model", "nodes", "arcs", "pieces", "answer", "monotropic"] + [PEERS[peer].title for peer in peers] + ["to NetworkSimplex"]
    rows, ratios, faults = [], [], []
    for name, seed, make in classes:
        model, path = made(name, seed, make)
        result = measured(path, peers, rounds, limit)
        faults += [f"{name}: {fault}" for fault in result.faults]
        ours, theirs = result.best.get("monotropic"), result.best.get("simplex")
        if ours and theirs:
            ratios.append(ours / theirs)
        kind = next((heard.split(" ")[0] for heard in result.said.values() if is_answer(heard)), "-")
        times = [milliseconds(result.best.get(program)) if is_answer(result.said[program]) else result.said[program]
                 for program in ["monotropic"] + peers]
        rows.append([name, f"{model.nodes:,}", f"{model.arcs:,}", f"{model.pieces:,}", kind] + times + [ratio(ours, theirs)])
        print("  ".join(rows[-1]), flush=True)
    text = markdown(heads, rows)
    if ratios:
        text += (f"\nGeometric mean of the ratios to NetworkSimplex, over {len(ratios)} of {len(rows)} models: "
                 f"{geometric_mean(ratios):.2f}; the greatest is {max(ratios):.2f}, the least {min(ratios):.2f}.\n")
    return text, faults


def flow_table(models, rounds, limit):
    """`maxflow` beside LEMON's Preflow, from the first node to the last."""
    rows, faults = [], []
    for name, seed, make in models:
        model, path = made(name, seed, make)
        words = {"maxflow": [PROGRAM, "maxflow", path, "n1", f"n{model.nodes}"], "preflow": peer_words("preflow", [path])}
        best, said = best_of(words, {"maxflow": said_of_flow, "preflow": said_by_peer}, rounds, limit)
        if len(set(said.values())) > 1 or not is_answer(said["maxflow"]):
            faults.append(f"{name}: " + "; ".join(f"{program} {heard}" for program, heard in said.items()))
        rows.append([name, f"{model.nodes:,}", f"{model.arcs:,}", said["maxflow"]] + [milliseconds(best[program]) for program in words]
                    + [ratio(best["maxflow"], best["preflow"])])
        print("  ".join(rows[-1]), flush=True)
    return markdown(["network", "nodes", "arcs", "answer", "maxflow", PEERS["preflow"].title, "to Preflow"], rows), faults


def best_of(words, hear, rounds, limit):
    """The best time of each program, and what it said last."""
    best, said = {}, {}
    for _ in range(rounds):
        for program in words:
            done = run(words[program], limit)
            said[program] = hear[program](done)
            best[program] = min(best.get(program, done.seconds), done.seconds)
    return best, said


def table_table(tables, rounds, limit):
    """`transport` on tables, beside `solve` and LEMON on the models that they stand for."""
    rows, faults = [], []
    for name, seed, plants, places, lanes in tables:
        table = shops.made(Draws(seed), plants, places, lanes)
        path = os.path.join(folder(), f"table-{lanes}")
        for end, text in ((".table", table.text()), (".net", table.model.text())):
            with open(path + end, "w") as file:
                file.write(text)
        words = {"transport": [PROGRAM, "transport", path + ".table"], "solve": [PROGRAM, "solve", path + ".net"], "simplex": peer_words("simplex", [path + ".net"])}
        hear = {"transport": said_of_table, "solve": said_by_program, "simplex": said_by_peer}
        best, said = best_of(words, hear, rounds, limit)
        if len(set(said.values())) > 1 or not is_answer(said["transport"]):
            faults.append(f"{name}: " + "; ".join(f"{program} {heard}" for program, heard in said.items()))
        rows.append([name, said["transport"].split(" ")[0]] + [milliseconds(best[program]) for program in words] + [ratio(best["transport"], best["simplex"])])
        print("  ".join(rows[-1]), flush=True)
    return markdown(["table", "answer", "transport", "solve", PEERS["simplex"].title, "to NetworkSimplex"], rows), faults


def is_asked(name, only):
    return not only or any(word in name for word in only)


def put_into_document(text):
    with open(SPEED) as file:
        page = file.read()
    front, rest = page.split(BEGIN)
    back = rest.split(END)[1]
    with open(SPEED, "w") as file:
        file.write(front + BEGIN + text + END + back)


def main():
    options = words_of()
    peers = options.peers.split(",")
    classes = [(name, seed, make) for name, seed, make, is_quick in CLASSES if (is_quick or not options.quick) and is_asked(name, options.only)]
    networks = [] if options.quick else [member for member in flows.FLOWS if is_asked(member[0], options.only)]
    if options.models:
        for name, seed, make in classes + networks:
            print(made(name, seed, make)[1])
        return
    build_peers(peers + (["preflow"] if networks else []))
    build_program()
    text = machine.lines(options.rounds, options.limit) + "\n"
    faults = []
    if classes:
        table, faults = class_table(classes, peers, options.rounds, options.limit)
        text += table
    if not options.quick and not options.only:
        for title, members in growth.SERIES:
            table, more = class_table(members, ["simplex"], options.rounds, options.limit)
            text += f"\n{title}\n\n{table}"
            faults += more
        table, more = table_table(shops.TABLES, options.rounds, options.limit)
        text += f"\nTables of plants, shops and lanes:\n\n{table}"
        faults += more
    if networks:
        table, more = flow_table(networks, options.rounds, options.limit)
        text += f"\nGreatest flows, from the first node to the last:\n\n{table}"
        faults += more
    with open(os.path.join(OUT, "table.md"), "w") as file:
        file.write(text)
    print("\n" + text)
    if options.write:
        put_into_document(text)
    for fault in faults:
        print("WRONG " + fault)
    sys.exit(1 if faults else 0)


main()
