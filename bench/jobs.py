#!/usr/bin/env python3
"""Times the jobs of dede from outside: sim of one and of four hosts, a refused text, and check on a full volume.

Usage: bench/jobs.py [PROGRAM [ROUNDS]]

Build the program first: `rt run` in crates/dede leaves it as crates/dede/out/dede. Each time is the median of the rounds, and in brackets the
least and the greatest; memory is the greatest resident size of a round. The plain loop makes the reads and writes of the volume file that
`strace` saw the program make, at the same places and in the same order, and nothing else.
"""
import os
import re
import statistics
import struct
import subprocess
import sys
import tempfile
import time

BLOCK = 4096
PER_TABLE = 1008
FILES = 64


def run(program, words, stdin, wanted):
    """Runs the program on a text; gives its seconds and its greatest resident size in KiB."""
    with tempfile.TemporaryFile() as given, open(os.devnull, "wb") as taken:
        given.write(stdin)
        given.seek(0)
        start = time.perf_counter()
        pid = os.fork()
        if pid == 0:
            os.dup2(given.fileno(), 0)
            os.dup2(taken.fileno(), 1)
            os.execv(program, [program, *words])
        _, status, usage = os.wait4(pid, 0)
        seconds = time.perf_counter() - start
    code = os.waitstatus_to_exitcode(status)
    if code != wanted:
        sys.exit(f"{words}: status {code}, not {wanted}")
    return seconds, usage.ru_maxrss


def workload(hosts, commands):
    """So many commands: each host makes its files, and then writes a block that was a hole, reads it, writes it in place and punches it."""
    own = FILES // hosts
    rest = commands - hosts - 2 * FILES
    length = rest // 4 // FILES + 1
    lines = [f"volume {hosts} {FILES} {FILES} 1 1 1"]
    lines += [f"{host} join" for host in range(hosts)]
    for file in range(FILES):
        lines += [f"{file // own} create {file}", f"{file // own} size {file} {length}"]
    for n in range(rest):
        turn, host = n // 4 // hosts, n // 4 % hosts
        at = f"{host * own + turn % own} {turn // own}"
        lines.append(f"{host} " + (f"write {at} {n}", f"read {at}", f"write {at} {n}", f"punch {at}")[n % 4])
    return "\n".join(lines).encode() + b"\n"


def device_calls(program, volume, text, folder):
    """The calls of a run on the volume file, in order: what to call, with which bytes or how many, and at which byte."""
    trace = f"{folder}/trace"
    traced = ["strace", "-qq", "-f", "-s", "0", "-e", "trace=pread64,pwrite64", "-P", volume, "-o", trace]
    subprocess.run([*traced, program, volume, "sim"], input=text, stdout=subprocess.DEVNULL, check=True)
    block, calls = bytes(BLOCK), []
    with open(trace) as lines:
        for line in lines:
            call = re.search(r"\bp(read|write)64\(\d+, .*, (\d+), (\d+)\)\s+= ", line)
            if call and call[1] == "read":
                calls.append((os.pread, int(call[2]), int(call[3])))
            elif call:
                calls.append((os.pwrite, block[: int(call[2])], int(call[3])))
    return calls


def plain_loop(path, calls):
    start = time.perf_counter()
    disk = os.open(path, os.O_RDWR | os.O_CREAT)
    for call, what, place in calls:
        call(disk, what, place)
    os.close(disk)
    return time.perf_counter() - start


def refused_text():
    """A megabyte of lines, all of them in the language but the last."""
    command = b"0 write 63 1007 18446744073709551615\n"
    text = b"volume 1 64 64 1 1 1\n" + command * 16384
    last = b"0 fly\n"
    room = 1048576 - len(text) - len(last)
    return text + b"barrier\n" * (room // 8) + last


def packed(magic, word, numbers):
    block = struct.pack(">8sII", magic, PER_TABLE, word).ljust(64, b"\0") + struct.pack(f">{PER_TABLE}I", *numbers)
    return block.ljust(BLOCK, b"\0")


def full_volume(path):
    """A volume of the greatest version 1 geometry whose files hold every data block."""
    hosts, files, groups, parts, shards, logs = 16, 64, 64, 16, 64, 16
    blocks = [struct.pack(">8s6I", b"DEDEVOL1", hosts, files, groups, parts, shards, logs)]
    blocks += [b"DEDESLOT"] * hosts
    blocks += [b"DEDEJRNL"] * hosts
    blocks += [b"DEDELOCK"] * (files + parts + groups)
    for file in range(files):
        first = file * PER_TABLE + 1
        blocks.append(packed(b"DEDEFILE", PER_TABLE + 1, range(first, first + PER_TABLE)))
    blocks += [packed(b"DEDECNTS", 0, [1] * PER_TABLE)] * groups
    blocks += [packed(b"DEDEAREN", 0, [0] * PER_TABLE)] * parts
    with open(path, "wb") as volume:
        volume.write(bytes(BLOCK))
        for block in blocks:
            volume.write(block.ljust(BLOCK, b"\0"))


def cell(seconds):
    low, middle, high = (f"{value:.3f}" for value in (min(seconds), statistics.median(seconds), max(seconds)))
    return f"{middle} ({low} to {high})"


def fresh(path):
    if os.path.exists(path):
        os.remove(path)
    return path


def sim_row(program, folder, hosts, commands, rounds):
    text = workload(hosts, commands)
    volume, plain = f"{folder}/volume", f"{folder}/plain"
    calls = device_calls(program, fresh(volume), text, folder)
    runs, loops = [], []
    for _ in range(rounds):
        runs.append(run(program, [fresh(volume), "sim"], text, 0))
        loops.append(plain_loop(fresh(plain), calls))
    seconds = [of_run for of_run, _ in runs]
    times = statistics.median(seconds) / statistics.median(loops)
    memory = max(size for _, size in runs) / 1024
    print(f"| {hosts} | {commands:,} | {len(calls):,} | {cell(seconds)} | {cell(loops)} | {times:.1f} | {memory:.1f} |", flush=True)


def job_row(program, words, stdin, wanted, title, rounds):
    results = [run(program, words, stdin, wanted) for _ in range(rounds)]
    memory = max(size for _, size in results) / 1024
    print(f"| {title} | {cell([seconds for seconds, _ in results])} | {memory:.1f} |", flush=True)


def main():
    given = sys.argv[1:]
    program = os.path.abspath(given[0] if given else "crates/dede/out/dede")
    rounds = int(given[1]) if len(given) > 1 else 5
    load = os.getloadavg()[0]
    with tempfile.TemporaryDirectory() as folder:
        print("| Hosts | Commands | Device calls | `sim`, seconds | Plain loop, seconds | Times | Peak memory, MiB |")
        print("|---|---|---|---|---|---|---|")
        for hosts in (1, 4):
            for commands in (1000, 4000, 16000):
                sim_row(program, folder, hosts, commands, rounds)
        print("\n| Job | Seconds | Peak memory, MiB |\n|---|---|---|")
        volume = f"{folder}/volume"
        text = refused_text()
        title = f"`sim` of a text of {len(text):,} bytes, refused at its last line"
        job_row(program, [volume, "sim"], text, 2, title, rounds)
        full_volume(volume)
        job_row(program, [volume, "check"], b"", 0, "`check` of a full volume of 65,217 blocks", rounds)
        print(f"\n{rounds} rounds, {os.cpu_count()} processors, load {load:.1f} before.")


if __name__ == "__main__":
    main()
