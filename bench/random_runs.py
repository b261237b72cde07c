#!/usr/bin/env python3
"""Runs random workloads with a thread for each host, and checks each report against plain files.

Usage: bench/random_runs.py [PROGRAM [RUNS [FIRST]]]

Build the program first: `examples/two_hosts.sh` leaves it as crates/dede/out/dede. Each run has a fresh volume file, and its workload is made
from its number alone, from FIRST on (1 if none is given). A report is right where each line has an answer; the history has each file command
that was answered once, and each that was cut at most once, those of one host in order and phase by phase; each answer is the plain reply at
its place in the history; no more blocks are used than mapped, and no fewer than the files have contents; and `check` then writes `valid` with the
same usage. It prints how often each answer came.
"""
import collections
import os
import random
import re
import subprocess
import sys
import tempfile

FILE_COMMANDS = ("create", "size", "write", "read", "punch", "remove")
CHANGES = ("create", "create", "size", "size", "write", "write", "write", "read", "read", "punch", "remove")
OTHERS = ("close", "close", "close", "beat", "leave", "join", "look", "look", "recover", "die")
HINTS = ("log", "log", "log", "scan", "merge", "merge", "serve", "collect")
MOST_BLOCKS = 1008


def command(draw, hosts, files, host):
    """One command of a host."""
    chance = draw.random()
    name = draw.choice(CHANGES if chance < 0.7 else HINTS if chance < 0.87 else OTHERS)
    file = host % files if draw.random() < 0.75 else draw.randrange(files)
    index = draw.randrange(4)
    other = draw.choice([h for h in range(hosts) if h != host] or [None])
    if name in ("create", "remove", "close"):
        return f"{name} {file}"
    if name == "size":
        return f"size {file} {draw.choice((0, 1, 2, 3, 4, 1008, 1009))}"
    if name == "write":
        return f"write {file} {index} {draw.randrange(10)}"
    if name in ("read", "punch", "scan"):
        return f"{name} {file} {index}"
    if name == "collect":
        return "collect 0"
    if name in ("look", "recover"):
        return "beat" if other is None else f"{name} {other}"
    if name == "die":
        return f"die {draw.randrange(12)}" if draw.random() < 0.3 else "beat"
    return name


def workload(number):
    """The lines of the workload of this number, without the line of the volume, and that line."""
    draw = random.Random(number)
    hosts, files = draw.randint(1, 4), draw.randint(1, 4)
    first = f"volume {hosts} {files} {draw.randint(1, 2)} 1 1 1"
    lines = []
    for phase in range(draw.randint(1, 4)):
        if phase > 0:
            lines.append("barrier")
        for host in range(hosts):
            if phase == 0 and draw.random() < 0.95:
                lines.append(f"{host} join")
                lines.append(f"{host} create {host % files}")
            for _ in range(draw.randint(0, 8)):
                lines.append(f"{host} {command(draw, hosts, files, host)}")
    return first, lines


def plain_reply(files, words):
    """Does a file command on plain files, which are lists of blocks, None for a hole; gives the text of its reply."""
    name, file, *numbers = words[0], *map(int, words[1:])
    if name == "create":
        if file in files:
            return "exists"
        files[file] = []
        return "ok"
    if file not in files:
        return "nofile"
    blocks = files[file]
    if name == "remove":
        del files[file]
        return "ok"
    if name == "size":
        if numbers[0] > MOST_BLOCKS:
            return "toolong"
        del blocks[numbers[0]:]
        blocks.extend([None] * (numbers[0] - len(blocks)))
        return "ok"
    if numbers[0] >= len(blocks):
        return f"beyond {len(blocks)}"
    if name == "read":
        return f"= {blocks[numbers[0]] or 0}"
    blocks[numbers[0]] = numbers[1] if name == "write" else None
    return "ok"


def places(lines):
    """Of each line, by its number in the text from 2: its phase, its host and the words of its command."""
    phase, found = 0, {}
    for at, line in enumerate(lines, 2):
        words = line.split()
        if words[0] == "barrier":
            phase += 1
        else:
            found[at] = (phase, int(words[0]), words[1:])
    return found


def fault(lines, report):
    """What is wrong with the report, if anything, and its answers."""
    commands = places(lines)
    *answered, history, usage = report.splitlines()
    answers = {int(line.split()[0]): line.split(" ", 1)[1] for line in answered}
    if [int(line.split()[0]) for line in answered] != list(commands) or not history.startswith("history"):
        return "the lines of the report", answers
    entries = [int(word) for word in history.split()[1:]]
    if len(set(entries)) != len(entries):
        return "a line that stands twice in the history", answers
    files, last, phase = {}, {}, 0
    for at in entries:
        if at not in commands or commands[at][2][0] not in FILE_COMMANDS:
            return f"line {at} in the history", answers
        now, host, words = commands[at]
        if now < phase or last.get(host, 0) > at:
            return f"the place of line {at} in the history", answers
        phase, last[host] = now, at
        reply = plain_reply(files, words)
        if answers[at] != reply and not answers[at].startswith("cut "):
            return f"line {at}: {answers[at]}, but {reply} at its place", answers
    for at, (_, _, words) in commands.items():
        idle = re.match("busy |full$|down$|cut ", answers[at])
        if words[0] in FILE_COMMANDS and not idle and at not in entries:
            return f"line {at} is missing in the history", answers
    used, mapped = map(int, re.fullmatch(r"used (\d+) mapped (\d+)", usage).groups())
    held = [block for blocks in files.values() for block in blocks if block is not None]
    if not len(set(held)) <= used <= mapped or len(held) > mapped:
        return f"the usage: {len(held)} places have blocks, of {len(set(held))} contents", answers
    return None, answers


def once(program, number, folder, counts):
    """Runs the workload of this number, and counts its answers."""
    first, lines = workload(number)
    text = "\n".join([first, *lines]) + "\n"
    volume = os.path.join(folder, "volume")
    if os.path.exists(volume):
        os.remove(volume)
    ran = subprocess.run([program, volume, "run"], input=text, capture_output=True, text=True, timeout=120)
    if ran.returncode != 0:
        return f"status {ran.returncode}: {ran.stdout}", text
    wrong, answers = fault(lines, ran.stdout)
    counts.update(" ".join(word for word in answer.split() if not word.isdigit()) for answer in answers.values())
    if wrong is None:
        checked = subprocess.run([program, volume, "check"], capture_output=True, text=True, timeout=120)
        if checked.stdout != "valid\n" + ran.stdout.splitlines()[-1] + "\n" or checked.returncode != 0:
            wrong = "check: " + checked.stdout
    return wrong, text + "\n" + ran.stdout


def main():
    program = os.path.abspath(sys.argv[1] if len(sys.argv) > 1 else "crates/dede/out/dede")
    runs = int(sys.argv[2]) if len(sys.argv) > 2 else 2000
    first = int(sys.argv[3]) if len(sys.argv) > 3 else 1
    counts = collections.Counter()
    with tempfile.TemporaryDirectory() as folder:
        for number in range(first, first + runs):
            wrong, shown = once(program, number, folder, counts)
            if wrong is not None:
                sys.exit(f"workload {number}: {wrong}\n{shown}")
    print(f"{runs} workloads: all right")
    print(", ".join(f"{answer} {count}" for answer, count in counts.most_common()))


main()
