"""The programs that are compared, and what each says of a model in the same words: `optimal COST`, `cut`, `unbounded`."""

import os
import subprocess
import sys

HERE = os.path.dirname(os.path.abspath(__file__))
TOP = os.path.dirname(HERE)
OUT = os.path.join(HERE, "out")
PROGRAM = os.environ.get("MONOTROPIC", os.path.join(TOP, "crates", "monotropic", "out", "monotropic"))


class Peer:
    def __init__(self, title, program, library):
        self.title = title
        self.program = os.path.join(OUT, program)
        self.source = os.path.join(HERE, "peer", program + ".cpp")
        self.library = library


# by the word that is asked of the peer's program
PEERS = {
    "simplex": Peer("LEMON NetworkSimplex", "lemon", "-llemon"),
    "preflow": Peer("LEMON Preflow", "lemon", "-llemon"),
    "scaling": Peer("LEMON CostScaling", "lemon", "-llemon"),
    "glpk": Peer("GLPK simplex", "glpk", "-lglpk"),
    "kilter": Peer("GLPK out-of-kilter", "glpk", "-lglpk"),
}


def peer_words(name, paths):
    return [PEERS[name].program, name] + paths


def build_peers(names):
    folder = os.path.join(HERE, "peer")
    os.makedirs(OUT, exist_ok=True)
    newest = max(os.path.getmtime(os.path.join(folder, name)) for name in os.listdir(folder))
    for name in names:
        peer = PEERS[name]
        if os.path.exists(peer.program) and os.path.getmtime(peer.program) > newest:
            continue
        # -w: LEMON's own headers warn under later standards
        words = ["g++", "-std=c++17", "-O3", "-DNDEBUG", "-w", "-o", peer.program, peer.source, peer.library]
        if subprocess.run(words).returncode != 0:
            sys.exit(f"bench: {peer.source} isn't built; it needs g++, liblemon-dev and libglpk-dev")


def build_program():
    """The launcher builds the program where it is missing or old; the processes are then measured without the launcher."""
    if "MONOTROPIC" not in os.environ:
        subprocess.run([os.path.join(TOP, "monotropic")], stdout=subprocess.DEVNULL)
    if not os.access(PROGRAM, os.X_OK):
        sys.exit(f"bench: no program {PROGRAM}")


def said_by_program(run):
    """Of a run of `solve`; what is no answer to the model is given back as it is."""
    if run.status is None:
        return "late"
    lines = run.text.split("\n")
    if run.status == 0 and lines[0] == "certificate 1 optimal" and lines[1].startswith("cost "):
        return "optimal " + lines[1][len("cost "):]
    if run.status == 1 and lines[0] == "certificate 1 cut":
        return "cut"
    if run.status == 2 and lines[0] == "certificate 1 circuit":
        return "unbounded"
    return f"status {run.status}: {lines[0]}"


def said_of_table(run):
    """Of a run of `transport`, in the same words."""
    if run.status is None:
        return "late"
    first = run.text.split("\n")[0]
    if run.status == 0 and first.startswith("transport cost "):
        return "optimal " + first[len("transport cost "):]
    if run.status == 1 and first.startswith("transport short "):
        return "cut"
    return f"status {run.status}: {first}"


def said_of_flow(run):
    """Of a run of `maxflow`."""
    if run.status is None:
        return "late"
    first = run.text.split("\n")[0]
    if run.status == 0 and first.startswith("maxflow "):
        return "flow " + first[len("maxflow "):]
    return f"status {run.status}: {first}"


def said_by_peer(run):
    if run.status is None:
        return "late"
    words = run.text.strip()
    return words if run.status == 0 else f"status {run.status}: {words}"


def is_answer(said):
    return said.split(" ")[0] in ("optimal", "flow", "cut", "unbounded")
