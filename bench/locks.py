#!/usr/bin/env python3
"""Times lock_bench from outside: holds a second of the turn lock and of std's Mutex.

Usage: bench/locks.py [PROGRAM [HOLDS [ROUNDS]]]

Build the program first: `rt run` in crates/lock_bench leaves it as out/lock_bench. HOLDS is how often
the value is held in one run, by all threads together. Both locks take turns in each round, and the
table has the median of the rounds and, in brackets, the least and the greatest.
"""
import os
import statistics
import subprocess
import sys
import time

THREADS = [1, 2, 4, 16]
LOCKS = ["turn", "mutex"]


def holds_per_second(program, lock, threads, holds):
    each = holds // threads
    words = [program, lock, str(threads), str(each)]
    start = time.perf_counter()
    subprocess.run(words, check=True)
    return each * threads / (time.perf_counter() - start)


def cell(rates):
    low, middle, high = (f"{rate:,.0f}" for rate in (min(rates), statistics.median(rates), max(rates)))
    return f"{middle} ({low} to {high})"


def main():
    given = sys.argv[1:]
    program = given[0] if given else "crates/lock_bench/out/lock_bench"
    holds = int(given[1]) if len(given) > 1 else 1_000_000
    rounds = int(given[2]) if len(given) > 2 else 5
    rates = {(lock, threads): [] for lock in LOCKS for threads in THREADS}
    before = os.getloadavg()[0]
    for _ in range(rounds):
        for threads in THREADS:
            for lock in LOCKS:
                rates[lock, threads].append(holds_per_second(program, lock, threads, holds))
    print("| Threads | Turn lock, holds a second | std's `Mutex`, holds a second |")
    print("|---|---|---|")
    for threads in THREADS:
        print(f"| {threads} | {cell(rates['turn', threads])} | {cell(rates['mutex', threads])} |")
    print()
    print(f"{holds:,} holds a run, {rounds} rounds, {os.cpu_count()} processors, load {before:.1f} before.")


if __name__ == "__main__":
    main()
