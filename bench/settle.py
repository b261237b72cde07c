#!/usr/bin/env python3
"""Times `settle` from outside, beside duperemove and a bare loop that takes the SHA-1 of each block.

Usage: bench/settle.py [PROGRAM [ROUNDS [FOLDER]]]

Build the program first: `rt run` in crates/dede leaves it as crates/dede/out/dede. A volume here has 64 files of 1,008 blocks, as many as fit,
and each data block is named by one place; a share of its places holds the bytes of another place. `check` is run on it before and behind, and
`settle` has to count what the script counted. Each round settles a fresh copy; a time is the median of the rounds, and in brackets the least and
the greatest. Blocks are in the system's cache. Memory is what GNU `time` says.

Equal blocks stand scattered, or as whole files that are equal to another one. duperemove compares extents, and finds the second kind alone. It
needs a file system that can share blocks, and root: an image in FOLDER is formatted as XFS and mounted. Where that fails its rows are left out.
The bare loop is a C program over libcrypto, compiled here; without a C compiler it is a loop of Python.
"""
import hashlib
import os
import random
import shutil
import statistics
import struct
import subprocess
import sys
import tempfile
import time

BLOCK = 4096
PER_TABLE = 1008
FILES = 64
GROUPS = 64
# The places of the geometry 1 64 64 1 1 1: superblock, slot, journal, locks, tables, log, shard, requests, data.
FIRST_DATA = 1 + 1 + 1 + (FILES + 1 + GROUPS) + (FILES + GROUPS + 1) + 1 + 1 + FILES
LOOP = r"""
#include <fcntl.h>
#include <openssl/evp.h>
#include <stdlib.h>
#include <unistd.h>
int main(int count, char **words) {
    unsigned char block[4096], digest[20];
    unsigned size, seen = 0;
    int file = open(words[1], O_RDONLY);
    long first = atol(words[2]), blocks = atol(words[3]);
    EVP_MD_CTX *state = EVP_MD_CTX_new();
    const EVP_MD *sha1 = EVP_sha1();
    for (long k = 0; k < blocks; k++) {
        if (pread(file, block, 4096, (first + k) * 4096) != 4096) return 1;
        EVP_DigestInit_ex(state, sha1, NULL);
        EVP_DigestUpdate(state, block, 4096);
        EVP_DigestFinal_ex(state, digest, &size);
        seen ^= digest[0];
    }
    return seen == 256;
}
"""


def run(words, given=b""):
    """Runs a program; gives what it wrote, its seconds, the seconds of processor time, and its greatest resident size in KiB."""
    with tempfile.TemporaryFile() as source, tempfile.TemporaryFile() as taken, tempfile.NamedTemporaryFile() as told:
        source.write(given)
        source.seek(0)
        timed = ["time", "-q", "-f", "%U %S %M", "-o", told.name, *words]
        start = time.perf_counter()
        ran = subprocess.run(timed, stdin=source, stdout=taken, stderr=subprocess.DEVNULL)
        seconds = time.perf_counter() - start
        taken.seek(0)
        said = taken.read()
        user, system, size = told.read().split()
    if ran.returncode:
        sys.exit(f"{words}: status {ran.returncode}: {said[-300:]}")
    return said, seconds, float(user) + float(system), int(size)


def scattered(blocks, tenths):
    """The number of the content of each place: so many tenths of the places, anywhere, hold the content of another one."""
    chance = random.Random(1)
    distinct = blocks - blocks * tenths // 10
    numbers = list(range(distinct)) + [chance.randrange(distinct) for _ in range(blocks - distinct)]
    chance.shuffle(numbers)
    return numbers, distinct


def whole_files(blocks, tenths):
    """The same where so many tenths of the files are equal to another one."""
    files = blocks // PER_TABLE
    firsts = files - round(files * tenths / 10)
    return [file % firsts * PER_TABLE + index for file in range(files) for index in range(PER_TABLE)], firsts * PER_TABLE


def bytes_of(number):
    return hashlib.shake_128(struct.pack(">Q", number)).digest(BLOCK)


def packed(magic, word, numbers):
    block = struct.pack(">8sII", magic, PER_TABLE, word).ljust(64, b"\0") + struct.pack(f">{PER_TABLE}I", *numbers)
    return block.ljust(BLOCK, b"\0")


def write_volume(path, numbers):
    """A volume of one host whose first files are full: place k of them has data block k, with the content of this number."""
    full = len(numbers) // PER_TABLE
    blocks = [struct.pack(">8s6I", b"DEDEVOL1", 1, FILES, GROUPS, 1, 1, 1), b"DEDESLOT", b"DEDEJRNL"]
    blocks += [b"DEDELOCK"] * (FILES + 1 + GROUPS)
    for file in range(FILES):
        first = file * PER_TABLE + 1
        is_full = file < full
        blocks.append(packed(b"DEDEFILE", (PER_TABLE + 1) * is_full, range(first, first + PER_TABLE) if is_full else [0] * PER_TABLE))
    blocks += [packed(b"DEDECNTS", 0, [int(group < full)] * PER_TABLE) for group in range(GROUPS)]
    blocks += [packed(b"DEDEAREN", 0, [0] * PER_TABLE)]
    blocks += [b""] * (FIRST_DATA - len(blocks))
    with open(path, "wb") as volume:
        volume.write(bytes(BLOCK))
        for block in blocks:
            volume.write(block.ljust(BLOCK, b"\0"))
        for number in numbers:
            volume.write(bytes_of(number))


def write_files(folder, numbers):
    """The same blocks as files, each of 1,008 blocks."""
    for file in range(len(numbers) // PER_TABLE):
        with open(f"{folder}/{file}", "wb") as written:
            for number in numbers[file * PER_TABLE : (file + 1) * PER_TABLE]:
                written.write(bytes_of(number))


def cell(seconds):
    low, middle, high = (f"{value:.2f}" for value in (min(seconds), statistics.median(seconds), max(seconds)))
    return f"{middle} ({low} to {high})"


def title(equal, kind):
    return f"{equal:,} {kind}".strip()


def bare_loop(folder):
    """The words of a program that reads blocks and takes their SHA-1, and its name."""
    source, program = f"{folder}/loop.c", f"{folder}/loop"
    with open(source, "w") as written:
        written.write(LOOP)
    try:
        subprocess.run(["cc", "-O2", "-o", program, source, "-lcrypto"], check=True, capture_output=True)
        return [program]
    except (OSError, subprocess.CalledProcessError):
        loop = "import hashlib, os, sys\n" \
            "f, a, n = os.open(sys.argv[1], 0), int(sys.argv[2]), int(sys.argv[3])\n" \
            "for k in range(n): hashlib.sha1(os.pread(f, 4096, 4096 * (a + k))).digest()\n"
        return [sys.executable, "-c", loop]


class Mounted:
    """A file system that can share blocks, in a file that is mounted; or none."""

    def __init__(self, folder):
        self.image, self.at = f"{folder}/image", f"{folder}/mounted"
        self.is_there = False

    def __enter__(self):
        try:
            with open(self.image, "wb") as image:
                image.truncate(1 << 30)
            subprocess.run(["mkfs.xfs", "-q", "-f", "-m", "reflink=1", self.image], check=True, capture_output=True)
            os.mkdir(self.at)
            subprocess.run(["mount", "-o", "loop", self.image, self.at], check=True, capture_output=True)
            self.is_there = shutil.which("duperemove") is not None
        except (OSError, subprocess.CalledProcessError) as error:
            print(f"duperemove is left out: {error}", file=sys.stderr)
        return self

    def __exit__(self, *_):
        subprocess.run(["umount", self.at], capture_output=True)

    def used(self):
        """The blocks of 4,096 bytes that the file system has given away."""
        at = os.statvfs(self.at)
        return (at.f_blocks - at.f_bfree) * at.f_frsize // BLOCK


def settle_row(program, folder, kind, numbers, distinct, rounds, loop):
    """Settles copies of a volume."""
    blocks = len(numbers)
    made, volume = f"{folder}/made", f"{folder}/volume"
    write_volume(made, numbers)
    said = run([program, made, "check"])[0]
    if said != f"valid\nused {blocks} mapped {blocks}\n".encode():
        sys.exit(f"the volume that was made: {said}")
    walls, users, sizes, loops = [], [], [], []
    for _ in range(rounds):
        shutil.copyfile(made, volume)
        loops.append(run([*loop, made, str(FIRST_DATA + 1), str(blocks)])[2])
        said, seconds, user, size = run([program, volume, "settle"])
        if said != f"settled {blocks} {distinct}\nused {distinct} mapped {blocks}\n".encode():
            sys.exit(f"settle: {said}")
        walls.append(seconds)
        users.append(user)
        sizes.append(size)
    if run([program, volume, "check"])[0] != f"valid\nused {distinct} mapped {blocks}\n".encode():
        sys.exit("the volume behind settle")
    loop_time, time_of = statistics.median(loops), statistics.median(users)
    print(
        f"| {blocks:,} | {title(blocks - distinct, kind)} | {cell(walls)} | {cell(users)} | {1e6 * time_of / blocks:.0f} | {cell(loops)} | "
        f"{time_of / loop_time:.1f} | {max(sizes) / 1024:.1f} |",
        flush=True,
    )


def copies(program, folder):
    """A volume with twenty equal files of 800 blocks, written by a workload: its usage before `settle`, and what `settle` tells."""
    volume, files, blocks = f"{folder}/copies", 20, 800
    lines = [f"volume 1 {files} 16 1 1 1", "0 join"]
    for file in range(files):
        lines += [f"0 create {file}", f"0 size {file} {blocks}"]
        lines += [f"0 write {file} {index} {index + 1}" for index in range(blocks)]
    text = "\n".join([*lines, "0 leave"]).encode() + b"\n"
    before = run([program, volume, "sim"], text)[0].decode().splitlines()[-1]
    told = run([program, volume, "settle"])[0].decode().splitlines()
    behind = run([program, volume, "check"])[0].decode().splitlines()
    print(f"Twenty files of {blocks} equal blocks: {before}; settle: {told[0]}, {told[1]}; check: {behind[0]}, {behind[1]}.\n", flush=True)


def duperemove_row(mounted, kind, numbers, distinct, rounds):
    blocks = len(numbers)
    walls, users, sizes, freed = [], [], [], []
    for _ in range(rounds):
        folder = f"{mounted.at}/files"
        os.mkdir(folder)
        write_files(folder, numbers)
        subprocess.run(["sync", "-f", mounted.at], check=True)
        before = mounted.used()
        _, seconds, user, size = run(["duperemove", "-rdh", folder])
        subprocess.run(["sync", "-f", mounted.at], check=True)
        walls.append(seconds)
        users.append(user)
        sizes.append(size)
        freed.append(before - mounted.used())
        shutil.rmtree(folder)
        subprocess.run(["sync", "-f", mounted.at], check=True)
    print(
        f"| {blocks:,} | {title(blocks - distinct, kind)} | {cell(walls)} | {cell(users)} | {max(sizes) / 1024:.1f} | {statistics.median(freed):,.0f} |",
        flush=True,
    )


def main():
    given = sys.argv[1:]
    program = os.path.abspath(given[0] if given else "crates/dede/out/dede")
    rounds = int(given[1]) if len(given) > 1 else 3
    room = given[2] if len(given) > 2 else None
    load = os.getloadavg()[0]
    whole = FILES * PER_TABLE
    cases = [("", scattered(whole, 0))]
    cases += [("scattered", scattered(whole, tenths)) for tenths in (1, 5, 9)]
    cases += [("scattered", scattered(whole // part, 5)) for part in (2, 4)]
    cases += [("in whole files", whole_files(whole, tenths)) for tenths in (1, 5, 9)]
    with tempfile.TemporaryDirectory(dir=room) as folder:
        copies(program, folder)
        loop = bare_loop(folder)
        print(f"The bare loop is {'a C program over libcrypto' if len(loop) == 1 else 'a loop of Python'}.\n")
        print(
            "| Blocks | Equal to another | `settle`, seconds | Processor, seconds | Microseconds a block | Bare loop, processor seconds | Times | "
            "Peak memory, MiB |"
        )
        print("|---|---|---|---|---|---|---|---|")
        for kind, case in cases:
            settle_row(program, folder, kind, *case, rounds, loop)
        with Mounted(folder) as mounted:
            if mounted.is_there:
                print("\n| Blocks | Equal to another | `duperemove -rdh`, seconds | Processor, seconds | Peak memory, MiB | Blocks freed |")
                print("|---|---|---|---|---|---|")
                for kind, case in cases:
                    duperemove_row(mounted, kind, *case, rounds)
    print(f"\n{rounds} rounds, {os.cpu_count()} processors, load {load:.1f} before.")


if __name__ == "__main__":
    main()
