"""What the numbers were measured on."""

import os
import subprocess


def first_line(words):
    try:
        return subprocess.run(words, capture_output=True, text=True).stdout.split("\n")[0].strip()
    except OSError:
        return "not there"


def processor():
    with open("/proc/cpuinfo") as file:
        for line in file:
            if line.startswith("model name"):
                return line.split(":")[1].strip()
    return "a processor without a name"


def version_of(package):
    return first_line(["dpkg-query", "-W", "-f=${Version}", package])


def stand():
    """The machine, its load, and what stands on it."""
    commit = first_line(["git", "-C", os.path.dirname(os.path.abspath(__file__)), "rev-parse", "--short", "HEAD"])
    loads = " ".join(f"{load:.1f}" for load in os.getloadavg())
    return (f"{processor()}, {os.cpu_count()} processors, load {loads} at the begin; commit {commit}; LEMON {version_of('liblemon-dev')}, "
            f"GLPK {version_of('libglpk-dev')}, {first_line(['g++', '--version'])}, `-O3`.\n")


def lines(rounds, limit):
    return (f"Milliseconds of processor time of the whole process, reading included; the best of {rounds} runs in turns, and one run where it "
            f"takes over a second; `late`: not within {limit:g} s.\n\n{stand()}")
