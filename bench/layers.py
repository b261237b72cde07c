#!/usr/bin/env python3
"""Prints the layers of the crates and the table of who stands on whom, from crates.txt and the heads of the crates.

Usage: bench/layers.py [--write]

With --write it puts both into docs/ARCHITECTURE.md, between the two lines that begin with `<!-- layers`.
"""
import os
import re
import sys
import textwrap

ROOT = os.path.dirname(os.path.dirname(os.path.abspath(__file__)))
MAP = os.path.join(ROOT, "docs", "ARCHITECTURE.md")


def crates():
    """Each crate of crates.txt, with all that it uses."""
    uses = {}
    with open(os.path.join(ROOT, "crates.txt")) as lines:
        for line in lines:
            left, colon, right = line.split("#")[0].partition(":")
            if colon:
                uses[left.split()[0]] = right.split()
    return uses


def purpose(crate):
    """The first sentence of the crate's head."""
    folder = os.path.join(ROOT, "crates", crate, "src")
    root = next(name for name in ("lib.rt", "main.rt") if os.path.exists(os.path.join(folder, name)))
    head = []
    with open(os.path.join(folder, root)) as lines:
        for line in lines:
            if not line.startswith("//"):
                break
            head.append(line.lstrip("/!").strip())
    sentence = re.match(r"(.*?[.])(?: |$)", " ".join(head).split("  ")[0])
    return sentence[1] if sentence else " ".join(head)


def level(crate, uses):
    below = [level(low, uses) for low in uses[crate] if low in uses]
    return 1 + max(below, default=0)


def picture(uses):
    levels = {}
    for crate in uses:
        levels.setdefault(level(crate, uses), []).append(crate)
    lines = []
    for number in sorted(levels, reverse=True):
        row = textwrap.wrap("  ".join(sorted(levels[number])), 110)
        lines += [f"{number:2}  {row[0]}", *[f"    {more}" for more in row[1:]]]
    return "```\n" + "\n".join(lines) + "\n```"


def table(uses):
    rows = ["| Crate | Stands on | What it is |", "|---|---|---|"]
    for crate in sorted(uses, key=lambda name: (level(name, uses), name)):
        low = ", ".join(f"`{name}`" for name in uses[crate])
        rows.append(f"| `{crate}` | {low} | {purpose(crate)} |")
    return "\n".join(rows)


def main():
    uses = crates()
    text = picture(uses) + "\n\n" + table(uses)
    if sys.argv[1:] != ["--write"]:
        print(text)
        return
    with open(MAP) as page:
        before, first, rest = re.split(r"(<!-- layers[^\n]*-->\n)", page.read(), maxsplit=1)
    _, last, after = re.split(r"(<!-- layers[^\n]*-->\n)", rest, maxsplit=1)
    with open(MAP, "w") as page:
        page.write(before + first + "\n" + text + "\n\n" + last + after)


if __name__ == "__main__":
    main()
