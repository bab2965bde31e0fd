"""Runs the program over files and outputs that fail, and compares what it does with docs/FORMATS.md.

First each call of the system fails in turn, and each reads and writes one byte at a time; then models with decimals are solved, checked and
converted; then come real failures, which are the rows of the table `What the program does when ..` of that page: a row without a test here,
and a test without a row, is wrong too. It runs in a folder of its own, which it removes, and in less than a minute. Exit status 1 where
something differs.
"""

import argparse
import errno
import os
import re
import resource
import signal
import sys
import time

from programs import TOP, build_program
from torn import CERTIFICATE, COMMANDS, MODEL, POINTED_CERTIFICATE, Sandbox, Tally, large_model, waited

FORMATS = os.path.join(TOP, "docs", "FORMATS.md")
LIMITS = os.path.join(TOP, "crates", "theory", "specs", "Limits.antt")
HEADING = "## What the program does when .."
NOBODY = 65534
EMPTY = b"network 1\n"
EMPTY_SOLVED = b"certificate 1 optimal\ncost 0\nvalue 0\n"
USAGE = b"usage: monotropic COMMAND WORDS\n"


def file_most():
    """The most bytes of a file, as the specification has it."""
    found = re.search(r"^file_most = ([0-9_]+)$", open(LIMITS).read(), re.M)
    return int(found.group(1).replace("_", ""))


def rows_of():
    """The table's rows: what happens, the status, and the text that is written, None where the row tells it in words."""
    page = open(FORMATS).read()
    if HEADING not in page:
        sys.exit(f"bench: docs/FORMATS.md has no section '{HEADING[3:]}'")
    rows = {}
    for line in page.split(HEADING)[1].split("\n## ")[0].split("\n"):
        cells = [cell.strip() for cell in line.strip("|").split("|")]
        if line.startswith("|") and len(cells) == 3 and (cells[1].isdigit() or cells[1] == ""):
            text = re.fullmatch("`(.*)`", cells[2])
            status = int(cells[1]) if cells[1] else None
            rows[cells[0]] = (status, (text.group(1) + "\n").encode() if text else b"" if cells[2] == "nothing" else None)
    return rows


# Each call of the system in turn.


def each_start_fails(sandbox, tally, words, whole):
    for at in range(1, whole.counts["open"] + 1):
        for number in (errno.EIO, errno.EACCES, errno.EMFILE):
            ended = sandbox.torn(words, "open", at, str(number))
            tally.compare(f"{words}: start {at} fails by {number}", ended, 7, b"read fault file %d\n" % at)
        tally.compare(f"{words}: start {at} finds nothing", sandbox.torn(words, "open", at, str(errno.ENOENT)), 6, b"missing file %d\n" % at)


def each_read_fails(sandbox, tally, words, whole, lengths, most):
    """A file of n bytes takes a read for each part that moves, and one that finds the end."""
    places = [file for file, length in enumerate(lengths, 1) for _ in range(-(-length // most) + 1)]
    tally.require(f"{words}: {whole.counts['read']} reads, {most} bytes each, and {len(places)} were awaited", whole.counts["read"] == len(places))
    for at, file in enumerate(places, 1):
        ended = sandbox.torn(words, "read", at, str(errno.EIO), most)
        tally.compare(f"{words}: read {at} fails, {most} bytes each", ended, 7, b"read fault file %d\n" % file)


def each_write_fails(sandbox, tally, words, whole, most):
    writes = -(-len(whole.written) // most)
    tally.require(f"{words}: {whole.counts['write']} writes, {most} bytes each, and {writes} were awaited", whole.counts["write"] == writes)
    for at in range(1, writes + 1):
        for how in (str(errno.ENOSPC), "none"):
            ended = sandbox.torn(words, "write", at, how, most)
            tally.compare(f"{words}: write {at} fails, {most} bytes each", ended, 8, whole.written[:(at - 1) * most])


def each_call(sandbox, tally):
    for words, names in COMMANDS:
        right = sandbox.run(words)
        # that there is no greatest tension is an answer too, and that the model can't be had with these decimals
        tally.require(f"{words}: status {right.status}", right.status in (0, 14, 16))
        lengths = [os.path.getsize(sandbox.path(name)) for name in names]
        for most in (1 << 20, 1):
            whole = sandbox.torn(words, most=most)
            tally.compare(f"{words}: {most} bytes each", whole, right.status, right.written)
            each_read_fails(sandbox, tally, words, whole, lengths, min(most, 4096))
            each_write_fails(sandbox, tally, words, whole, most)
        each_start_fails(sandbox, tally, words, sandbox.torn(words))


# Decimals: what is right is known from outside the program.


CONVERTED = b"network 2\ndecimals 1 2\nnode s -inf 2.00 +inf\nnode t -5.0\narc a s t 0.0 2.00 4.0 5.00 10.0\n"
# words after `convert`, the status, and what is written
CONVERSIONS = (
    (("model", "1", "2"), 0, CONVERTED),
    (("pointed-model", "0", "0"), 14, b"not converted\n"),
    (("pointed-model", "1", "1"), 14, b"not converted\n"),
    (("model", "1"), 4, USAGE),
    (("model", "1", "2", "3"), 4, USAGE),
    (("model", "7", "0"), 4, USAGE),
    (("model", "0", "01"), 4, USAGE),
    (("model", "", "0"), 4, USAGE),
    (("model", "0", "-1"), 4, USAGE),
    (("nowhere", "0", "0"), 6, b"missing file 1\n"),
    (("certificate", "0", "0"), 5, b"model line 1: header\n"),
)


def decimals(sandbox, tally):
    tally.compare("solve with decimals", solved(sandbox, "pointed-model"), 0, POINTED_CERTIFICATE)
    tally.compare("check with decimals", sandbox.run(("check", "pointed-model", "pointed-certificate")), 0, b"accepted optimal\n")
    sandbox.put("short-certificate", POINTED_CERTIFICATE.replace(b"cost 26.500", b"cost 26.50"))
    tally.compare("check with a digit less", sandbox.run(("check", "pointed-model", "short-certificate")), 3, b"rejected bad-text line 2\n")
    for words, status, written in CONVERSIONS:
        tally.compare(f"convert {' '.join(words)}", sandbox.run(("convert", *words)), status, written)


# Real failures of files. Each function makes what its row tells, and gives the end of a run; where the row tells no text, the
# text that is right is the last argument of `compare`.


def solved(sandbox, name, **options):
    return sandbox.run(("solve", name), **options)


def without_permission(sandbox):
    sandbox.put("closed", MODEL)
    os.chmod(sandbox.path("closed"), 0)
    return solved(sandbox, "closed", **({"user": NOBODY} if os.geteuid() == 0 else {}))


def linked(sandbox, name, to):
    os.symlink(to, sandbox.path(name))
    return solved(sandbox, name)


def filled(sandbox, length):
    sandbox.put("long", EMPTY + b"#" * (length - len(EMPTY)))
    return solved(sandbox, "long")


def changed(sandbox, call, how, right):
    """The file has more than one read's bytes, and is changed just before that read; `right` is what is read in the end."""
    text = EMPTY + b"#" * 6000 + b"\n" + MODEL[len(EMPTY):]
    sandbox.put("changing", text)
    ended = sandbox.torn(("solve", "changing"), "read", call, f"{how} {sandbox.path('changing')}")
    sandbox.put("read", right(text))
    return ended, solved(sandbox, "read")


def compare_changes(sandbox, tally, row):
    cases = (
        ("cut to its first line", 1, "cut 10", lambda text: text[:10]),
        ("cut behind what was read", 2, "cut 5000", lambda text: text[:5000]),
        ("cut within what was read", 2, "cut 100", lambda text: text[:4096]),
        ("cut in a line", 2, f"cut {6011 + 14}", lambda text: text[:6011 + 14]),
        ("grown by a comment", 2, "add 9", lambda text: text + b"#" * 9),
        ("grown past the limit", 2, f"add {file_most()}", lambda text: text + b"#" * file_most()),
    )
    for title, call, how, right in cases:
        ended, same = changed(sandbox, call, how, right)
        tally.compare(f"{row}: {title}", ended, same.status, same.written)


def from_fifo(sandbox, meanwhile):
    """The program waits for a writer; what is done meanwhile leads to its end."""
    os.mkfifo(sandbox.path("fifo"))
    with open(sandbox.path("written"), "wb") as output:
        child = sandbox.start(("solve", "fifo"), output)
        time.sleep(0.3)
        is_waiting = child.poll() is None
        meanwhile(child)
        status = waited(child, 20)
    os.remove(sandbox.path("fifo"))
    with open(sandbox.path("written"), "rb") as written:
        return is_waiting, status, written.read()


def write_model(sandbox):
    def meanwhile(child):
        child.send_signal(signal.SIGSTOP)
        child.send_signal(signal.SIGCONT)
        with open(sandbox.path("fifo"), "wb") as fifo:
            fifo.write(MODEL[:20])
            fifo.flush()
            time.sleep(0.1)
            fifo.write(MODEL[20:])
    return meanwhile


def write_without_end(sandbox):
    def meanwhile(child):
        try:
            with open(sandbox.path("fifo"), "wb", buffering=0) as fifo:
                fifo.write(EMPTY)
                while child.poll() is None:
                    fifo.write(b"#" * 65536)
        except BrokenPipeError:
            pass
    return meanwhile


def from_standard_input(sandbox):
    reader, writer = os.pipe()
    os.write(writer, EMPTY)
    os.close(writer)
    ended = solved(sandbox, "/dev/stdin", stdin=reader)
    os.close(reader)
    return ended


FILES = {
    "the file isn't there": lambda box: solved(box, "nowhere"),
    "its name is empty": lambda box: solved(box, ""),
    "it is a link to nothing": lambda box: linked(box, "dangling", "nowhere"),
    "it is a link to itself": lambda box: linked(box, "loop", "loop"),
    "its path goes through a file": lambda box: solved(box, "model/x"),
    "its name is longer than the system's names": lambda box: solved(box, "n" * 300),
    "it is a folder": lambda box: solved(box, "."),
    "there is no permission to read it": without_permission,
    "a read of it fails": lambda box: solved(box, "/proc/self/mem"),
    "it is empty, as `/dev/null` is": lambda box: solved(box, "/dev/null"),
    "it is `/dev/stdin`, a pipe": from_standard_input,
    "it has just as many bytes as are allowed": lambda box: filled(box, file_most()),
    "it has one byte more": lambda box: filled(box, file_most() + 1),
    "it is a device that never ends": lambda box: solved(box, "/dev/zero"),
    "the second file is a folder": lambda box: box.run(("check", "model", ".")),
    "the second file isn't there": lambda box: box.run(("check", "model", "nowhere")),
    "the second file is a device that never ends": lambda box: box.run(("check", "model", "/dev/zero")),
    "a word isn't UTF-8": lambda box: box.run((b"solve", b"\xff")),
}


def compare_fifos(sandbox, tally, rows):
    row = "it is a FIFO"
    is_waiting, status, written = from_fifo(sandbox, write_model(sandbox))
    tally.require(f"{row}: it waits for a writer", is_waiting)
    tally.require(f"{row}: status {status}, {written!r}", (status, written) == (rows[row][0], CERTIFICATE))
    row = "it is a FIFO that never ends"
    _, status, written = from_fifo(sandbox, write_without_end(sandbox))
    tally.require(f"{row}: status {status}, {written!r}", (status, written) == rows[row])


# Real failures of the output.


def written_to(sandbox, path, flags, words=("solve", "model"), **options):
    output = os.open(path, flags)
    try:
        return waited(sandbox.start(words, output, **options), 20)
    finally:
        os.close(output)


def to_closed(sandbox):
    return waited(sandbox.start(("solve", "model"), None, preexec_fn=lambda: os.close(1)), 20), b""


def to_full(sandbox):
    return written_to(sandbox, "/dev/full", os.O_WRONLY), b""


def to_read_only(sandbox):
    return written_to(sandbox, sandbox.path("model"), os.O_RDONLY), b""


def to_limited(sandbox):
    """Files of 30 bytes at most: the first write falls short and the second fails."""
    def limit():
        signal.signal(signal.SIGXFSZ, signal.SIG_IGN)
        resource.setrlimit(resource.RLIMIT_FSIZE, (30, 30))
    sandbox.put("limited", b"")
    status = written_to(sandbox, sandbox.path("limited"), os.O_WRONLY, preexec_fn=limit, restore_signals=False)
    with open(sandbox.path("limited"), "rb") as written:
        return status, written.read()


def to_pipe(sandbox, length, options):
    """The reader takes so many bytes and goes; with 0 it is gone before."""
    reader, writer = os.pipe()
    if options & os.O_NONBLOCK:
        os.set_blocking(writer, False)
    if length == 0 and not options:
        os.close(reader)
    child = sandbox.start(("solve", "large"), writer)
    os.close(writer)
    taken = b""
    if options:
        status = waited(child, 20)
        while True:
            part = os.read(reader, 65536)
            if not part:
                break
            taken += part
        os.close(reader)
        return status, taken
    if length > 0:
        taken = os.read(reader, length)
        os.close(reader)
    return waited(child, 20), taken


OUTPUTS = {
    "standard output is closed": to_closed,
    "standard output is open for reading alone": to_read_only,
    "the disk is full": to_full,
    "the disk is full within the text": to_limited,
    "the reader of the pipe is gone": lambda box: to_pipe(box, 0, 0),
    "the reader goes away within the text": lambda box: to_pipe(box, 1000, 0),
    "the pipe is full and doesn't wait": lambda box: to_pipe(box, 0, os.O_NONBLOCK),
}


def compare_outputs(sandbox, tally, rows):
    sandbox.put("large", large_model())
    wholes = {name: solved(sandbox, name).written for name in ("model", "large")}
    tally.require("the large answer fits into a pipe", len(wholes["large"]) > 200_000)
    for row, make in OUTPUTS.items():
        status, written = make(sandbox)
        tally.require(f"{row}: status {status}", status == rows[row][0])
        is_front = any(whole.startswith(written) and len(written) < len(whole) for whole in wholes.values())
        is_right = written == b"" if rows[row][1] == b"" else is_front and written != b""
        tally.require(f"{row}: {written[:80]!r} was written", is_right)


def compare_streams(sandbox, tally, rows):
    row = "standard input and standard error are closed"
    def close():
        os.close(0)
        os.close(2)
    tally.compare(row, sandbox.run(("solve", "model"), preexec_fn=close), rows[row][0], CERTIFICATE)


APART = ("it shrinks or grows while it is read", "it is a FIFO", "it is a FIFO that never ends", "standard input and standard error are closed")


def real_failures(sandbox, tally):
    rows = rows_of()
    tests = {*FILES, *OUTPUTS, *APART}
    for title in sorted(tests ^ set(rows)):
        sys.exit(f"bench: '{title}' " + ("has no test" if title in rows else "isn't a row of docs/FORMATS.md"))
    for row, make in FILES.items():
        status, written = rows[row]
        tally.compare(row, make(sandbox), status, EMPTY_SOLVED if written is None else written)
    compare_changes(sandbox, tally, APART[0])
    compare_fifos(sandbox, tally, rows)
    compare_outputs(sandbox, tally, rows)
    compare_streams(sandbox, tally, rows)


def main():
    argparse.ArgumentParser(prog="bench/outside", description=__doc__).parse_args()
    build_program()
    tally = Tally()
    with Sandbox() as sandbox:
        each_call(sandbox, tally)
        decimals(sandbox, tally)
        real_failures(sandbox, tally)
    return tally.end()


if __name__ == "__main__":
    sys.exit(main())
