#!/usr/bin/env python3
"""Measures the gate from outside: the processor seconds of each crate's proofs, tests and edits.

Usage: bench/gate_times.py [--kept] [NAME ..]

Runs `rt ci --anew` at the top of the repository (with --kept without `--anew`; with names, of those crates and the
ones below them), passes its output on, and prints a table when it has ended. Four times a second it reads the
processor times of all processes that the gate started; one that lives shorter than that is counted in part.
"""
import os
import re
import subprocess
import sys
import threading
import time

ROOT = os.path.dirname(os.path.dirname(os.path.abspath(__file__)))
TICKS = os.sysconf("SC_CLK_TCK")
KINDS = ("proof", "tests", "edits", "other")


def processes():
    """Each process of this machine: its number with its start, its parent, and its own processor seconds."""
    for name in os.listdir("/proc"):
        if not name.isdigit():
            continue
        try:
            with open(f"/proc/{name}/stat") as stat:
                fields = stat.read().rsplit(")", 1)[1].split()
        except OSError:
            continue
        yield int(name), (int(name), fields[19]), int(fields[1]), (int(fields[11]) + int(fields[12])) / TICKS


def work_of(pid):
    """The crate and the kind of work that a process does by its own words, or None."""
    try:
        with open(f"/proc/{pid}/cmdline", "rb") as words:
            line = words.read().replace(b"\0", b" ").decode(errors="replace")
        folder = os.readlink(f"/proc/{pid}/cwd")
    except OSError:
        return None
    crate = re.search(r"--crate-name (\w+)", line)
    if not crate:
        return None
    if "/rt-edit-" in folder + line:
        return crate[1], "edits"
    return crate[1], "tests" if "--test" in line.split() else "proof"


class Meter:
    """The processor seconds of all that one process started, by crate and kind of work."""

    def __init__(self, root):
        self.root = root
        self.parents = {}
        self.works = {}
        self.seconds = {}

    def read(self):
        alive = list(processes())
        self.parents.update({pid: parent for pid, _, parent, _ in alive})
        for pid, key, _, seconds in alive:
            if self.is_ours(pid):
                self.seconds[key] = seconds
                if not self.works.get(key):
                    self.works[key] = self.work_above(pid)

    def is_ours(self, pid):
        while pid > 1:
            if pid == self.root:
                return True
            pid = self.parents.get(pid, 0)
        return False

    def work_above(self, pid):
        while pid > 1 and pid != self.root:
            work = work_of(pid)
            if work:
                return work
            pid = self.parents.get(pid, 0)
        return None

    def table(self):
        rows = {}
        for key, seconds in self.seconds.items():
            crate, kind = self.works.get(key) or ("(the rest)", "other")
            row = rows.setdefault(crate, dict.fromkeys(KINDS, 0.0))
            row[kind] += seconds
        return rows


def print_table(rows, clock):
    print("| Crate | " + " | ".join(KINDS[:3]) + " | minutes |")
    print("|---|---|---|---|---|")
    for crate, row in sorted(rows.items(), key=lambda item: -sum(item[1].values())):
        cells = " | ".join(f"{row[kind]:.0f}" for kind in KINDS[:3])
        print(f"| `{crate}` | {cells} | {sum(row.values()) / 60:.1f} |")
    whole = sum(sum(row.values()) for row in rows.values())
    print(f"whole: {whole / 60:.1f} processor minutes in {clock / 60:.1f} minutes of the clock")


def main():
    words = sys.argv[1:]
    kept = "--kept" in words
    names = [word for word in words if word != "--kept"]
    start = time.monotonic()
    gate = subprocess.Popen(["rt", "ci", *([] if kept else ["--anew"]), *names], cwd=ROOT)
    meter = Meter(gate.pid)
    ended = threading.Event()

    def watch():
        while not ended.wait(0.25):
            meter.read()

    watcher = threading.Thread(target=watch)
    watcher.start()
    status = gate.wait()
    ended.set()
    watcher.join()
    print_table(meter.table(), time.monotonic() - start)
    sys.exit(status)


if __name__ == "__main__":
    main()
