"""The built program in a folder of its own, whose calls of the system fail where that is asked for."""

import os
import shutil
import subprocess
import sys
import tempfile

from programs import HERE, PROGRAM

KINDS = ("open", "read", "write", "memory")
MODEL = b"network 1\nnode s -inf 2 +inf\nnode t -5\narc a s t 0 2 4 5 10\n"
CERTIFICATE = b"certificate 1 optimal\ncost 23\nvalue 23\nnode s 2 5\nnode t 7 -5\narc a 5\n"
TABLE = b"transport 1\nplant p 5 2 9 4\nshop q 6\nlane a p q 9 1\n"
CHANGES = b"changes 1\narc a 0 2 4 5 20\nnode t -2\n"
# the same with decimals, at other prices
POINTED_MODEL = b"network 2\ndecimals 1 2\nnode s -inf 2.5 +inf\nnode t -5\narc a s t 0 2.25 4 5 10\n"
POINTED_CERTIFICATE = b"certificate 2 optimal\ncost 26.500\nvalue 26.500\nnode s 2.50 5.0\nnode t 7.50 -5.0\narc a 5.0\n"
POINTED_CHANGES = b"changes 1\narc a 0 2.25 4 5 20.5\nnode t -2.5\n"
# each command over files of the sandbox, with the files that it reads, in order
COMMANDS = (
    (("solve", "model"), ("model",)),
    (("check", "model", "certificate"), ("model", "certificate")),
    (("feasible", "model"), ("model",)),
    (("curve", "model", "a"), ("model",)),
    (("tableau", "model"), ("model",)),
    (("pieces", "model", "certificate"), ("model", "certificate")),
    (("maxflow", "model", "s", "t"), ("model",)),
    (("maxtension", "model", "s", "t"), ("model",)),
    (("transport", "table"), ("table",)),
    (("resolve", "model", "changes"), ("model", "changes")),
    (("convert", "model", "1", "2"), ("model",)),
    (("trial", "1"), ()),
    (("solve", "pointed-model"), ("pointed-model",)),
    (("check", "pointed-model", "pointed-certificate"), ("pointed-model", "pointed-certificate")),
    (("resolve", "pointed-model", "pointed-changes"), ("pointed-model", "pointed-changes")),
    (("convert", "pointed-model", "3", "2"), ("pointed-model",)),
    (("convert", "pointed-model", "0", "0"), ("pointed-model",)),
)


def large_model():
    """A model whose answer is longer than a pipe holds: 1,000 nodes and nearly 4,000 arcs with long names."""
    nodes = ["n" * 60 + f"{k:04}" for k in range(1000)]
    lines = ["network 1"] + [f"node {node}" for node in nodes]
    for k in range(4000):
        begin, end = nodes[k % 1000], nodes[(k * 7 + 1) % 1000]
        if begin != end:
            lines.append("arc " + "a" * 60 + f"{k:04} {begin} {end} 0 1 9")
    return "\n".join(lines + [""]).encode()


class Ended:
    """An exit status, negative for a signal and None where the run met its limit; what was written; how many calls of each kind."""

    def __init__(self, status, written, counts=None):
        self.status = status
        self.written = written
        self.counts = counts


class Sandbox:
    """A folder with a copy of the program, a model, its certificate and changes, another with decimals, and a table; it is removed at the end."""

    def __enter__(self):
        self.folder = tempfile.mkdtemp(prefix="monotropic-")
        os.chmod(self.folder, 0o755)
        self.program = os.path.join(self.folder, "program")
        shutil.copy(PROGRAM, self.program)
        os.chmod(self.program, 0o755)
        self.library = os.path.join(self.folder, "torn.so")
        words = ["cc", "-shared", "-fPIC", "-O2", "-o", self.library, os.path.join(HERE, "torn.c")]
        if subprocess.run(words).returncode != 0:
            sys.exit("bench: torn.c isn't built; it needs cc")
        self.put("model", MODEL)
        self.put("certificate", CERTIFICATE)
        self.put("table", TABLE)
        self.put("changes", CHANGES)
        self.put("pointed-model", POINTED_MODEL)
        self.put("pointed-certificate", POINTED_CERTIFICATE)
        self.put("pointed-changes", POINTED_CHANGES)
        return self

    def __exit__(self, *_):
        shutil.rmtree(self.folder, ignore_errors=True)

    def path(self, name):
        return os.path.join(self.folder, name)

    def put(self, name, data):
        with open(self.path(name), "wb") as file:
            file.write(data)

    def start(self, words, output, **options):
        """Starts the program with no environment but what is given."""
        options = {"env": {}, "stdin": subprocess.DEVNULL, **options}
        return subprocess.Popen([self.program, *words], cwd=self.folder, stdout=output, stderr=subprocess.DEVNULL, **options)

    def run(self, words, limit=20, **options):
        """Runs it to its end, with a file for its output."""
        with tempfile.TemporaryFile() as output:
            child = self.start(words, output, **options)
            status = waited(child, limit)
            output.seek(0)
            return Ended(status, output.read())

    def torn(self, words, call=None, at=0, how="", most=None):
        """Runs it with its calls counted, and the call of that kind and number torn in that way."""
        environment = {"LD_PRELOAD": self.library}
        if call:
            environment.update(TORN_CALL=call, TORN_AT=str(at), TORN_WITH=how)
        if most:
            environment.update(TORN_MOST=str(most))
        with tempfile.TemporaryFile() as counts:
            environment.update(TORN_COUNTS=str(counts.fileno()))
            ended = self.run(words, env=environment, pass_fds=[counts.fileno()])
            counts.seek(0)
            numbers = counts.read().split()
        ended.counts = dict(zip(KINDS, map(int, numbers)))
        return ended


def waited(child, limit):
    try:
        return child.wait(limit)
    except subprocess.TimeoutExpired:
        child.kill()
        child.wait()
        return None


class Tally:
    """Compares what came with what is right, prints what differs, and counts."""

    def __init__(self):
        self.compared = 0
        self.wrong = 0

    def compare(self, title, ended, status, written):
        """`written` may be a test of the bytes."""
        self.compared += 1
        is_right = written(ended.written) if callable(written) else ended.written == written
        if ended.status != status or not is_right:
            self.wrong += 1
            print(f"{title}: status {ended.status}, {ended.written[:80]!r}; right is {status}" + ("" if callable(written) else f", {written[:80]!r}"))

    def require(self, title, holds):
        self.compared += 1
        if not holds:
            self.wrong += 1
            print(title)

    def end(self):
        print(f"{self.compared} compared, {self.wrong} wrong")
        return 1 if self.wrong else 0
