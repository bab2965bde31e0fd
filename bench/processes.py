"""Whole processes, with a clock and a limit."""

import os
import subprocess
import tempfile
import threading


class Run:
    """What a process wrote, its exit status, and its processor time in seconds; `status` is None where it met the limit."""

    def __init__(self, status, text, seconds):
        self.status = status
        self.text = text
        self.seconds = seconds


def run(words, limit):
    with tempfile.TemporaryFile() as output:
        child = subprocess.Popen(words, stdin=subprocess.DEVNULL, stdout=output, stderr=subprocess.DEVNULL)
        is_late = threading.Event()

        def stop():
            is_late.set()
            child.kill()

        clock = threading.Timer(limit, stop)
        clock.start()
        _, outcome, usage = os.wait4(child.pid, 0)
        clock.cancel()
        # the child is gone by wait4; Popen needs to know, or it waits for it again
        child.returncode = os.waitstatus_to_exitcode(outcome)
        output.seek(0)
        text = output.read().decode(errors="replace")
        # a time of 0 can't stand in a ratio
        seconds = max(usage.ru_utime + usage.ru_stime, 0.0001)
        return Run(None if is_late.is_set() else child.returncode, text, seconds)
