#!/usr/bin/env python3
"""Prints what the contract of the program rests on: the definitions that its clause reaches, file by file, in reading order.

Usage: bench/reading.py [--write]

It follows names from the clauses of `command` and `top`, through the definitions of specs/ and the types of src/. A line counts where a
definition that is reached has it; comments, blank lines and imports do not. With --write it puts the lists into
docs/DEFINITIONS.md, between the two lines that begin with `<!-- reading`.
"""
import os
import re
import sys
import textwrap

ROOT = os.path.dirname(os.path.dirname(os.path.abspath(__file__)))
CRATES = os.path.join(ROOT, "crates")
PAGE = os.path.join(ROOT, "docs", "DEFINITIONS.md")

# The parts of the guide: a title, what it is for, and the definitions with which it ends. What an earlier part has is not told again.
PARTS = [
    ("Plain files and histories",
     "the measure of every answer: what a file call replies and leaves, and when a history is legal and fits a workload",
     ["plain_files.History.IsLegal", "plain_files.History.state_after", "histories.Fit.Fits"]),
    ("What an image means",
     "how files are read off the blocks of a device, and when an image is a valid volume",
     ["jobs.Runs.files_of", "image_view.Valid.IsValid"]),
    ("What holds of every run",
     "the promise: `IsOwed`, with `Fits`, `Opens` and `IsLed`, whatever became of the hosts",
     ["jobs.Runs.IsOwed"]),
    ("The text that is read, and the report",
     "which workload and schedule are meant, and which bytes tell a run",
     ["words.Words.job_of", "words.Words.hosts_of", "workload.Grammar.workload_of", "report.Reports.report", "image_view.Usages.usage_of"]),
    ("What is told of a device and a text",
     "what is written at each status, why a text or a device is refused, and the other two ends, `CheckEnds` and `UsageEnds`",
     ["jobs.Checks.CheckDecides", "jobs.Outcomes.outcome_text", "jobs.Simulations.RefusesDevice", "jobs.Simulations.RefusesText",
      "jobs.Runs.IsFitFor", "jobs.Runs.IsUnfit", "jobs.Runs.IsRefusable", "jobs.Commands.UsageEnds", "jobs.Commands.CheckEnds",
      "jobs.Seen.seen", "jobs.Seen.source_by", "jobs.Seen.sink_by", "shared_disk.Seen.seen_by"]),
    ("The turns, and the cause of each answer",
     "that turns of the schedule led from the opening to the end, of one device call at most, and why each answer came; "
     "and with them `SimEnds` and `CommandEnds`",
     ["schedule.Plays.IsPlayed", "host_runs.Tidy.IsTidy", "host_runs.Tidy.IsComplete", "jobs.Commands.CommandEnds"]),
]


class Specs:
    """A file of specs/: its definitions, each with its lines, and what its names mean."""

    def __init__(self, path):
        self.lines, self.names, self.modules = {}, {}, {}
        name = None
        with open(path, encoding="utf-8") as text:
            for line in text:
                line = line.rstrip()
                if not line or line.lstrip().startswith("--"):
                    continue
                if re.match(r"(pub )?use ", line):
                    self.bring_in(line)
                    name = None
                elif re.match(r"(pub )?(mod|infix[lr]?) ", line):
                    name = None
                else:
                    name = self.defined(line, name)
                    if name:
                        self.lines[name].append(line)

    def bring_in(self, line):
        module, names, alias = re.match(r"(?:pub )?use ([\w.]+?)(?:\.\{(.*)\})?(?: as (\S+))?$", line).groups()
        if names is None:
            self.modules[alias or module.split(".")[-1]] = module
            return
        for item in names.split(","):
            item = item.split()
            if item:
                self.names[item[-1]] = (module, item[0])

    def defined(self, line, name):
        """The definition that the line belongs to."""
        if line[0].isspace():
            variant = re.match(r"\s+([A-Z]\w*) : ", line)
            if name and variant:
                self.lines.setdefault(variant[1], self.lines[name])
            return name
        head = re.match(r"(abbrev |unfoldable )?(pub )?(record |data )?(pub )?(\S+)", line)
        if any(head.groups()[:4]) or (" : " in line and " = " not in line.split(" : ")[0]):
            self.lines.setdefault(head[5], [])
            return head[5]
        return name


def words(line):
    line = re.sub(r'"[^"]*"|--.*$', " ", line)
    return re.findall(r"[A-Za-z_][\w\-']*(?:\.[A-Za-z_][\w\-']*)*|[^\s\w(){};,.]+", line)


class Reader:
    """What was reached so far."""

    def __init__(self):
        self.specs, self.seen, self.types = {}, set(), {}
        self.part = []

    def file(self, path):
        if path not in self.specs:
            self.specs[path] = Specs(path)
        return self.specs[path]

    def reach(self, module, name):
        parts = module.split(".")
        if parts[0] != "Rattle" or parts[1] not in os.listdir(CRATES):
            return
        if parts[3:4] == ["declared"]:
            parts = parts[4:-1] if parts[-1] in ("TheVariants", "TheConstants") else parts[4:]
            if module.endswith("TheConstants"):
                return
            self.reach_type(module.split(".")[1], parts[-1])
            return
        path = os.path.join(CRATES, parts[1], "specs", *parts[3:]) + ".antt"
        if os.path.exists(path):
            self.reach_definition(path, name)

    def reach_type(self, crate, name):
        if (crate, name) not in self.types:
            self.types[crate, name] = declared(crate, name)
            self.part.append((crate, None, name, self.types[crate, name]))

    def reach_definition(self, path, name):
        specs = self.file(path)
        lines = specs.lines.get(name)
        if lines is None:
            if name in specs.names:
                self.reach(*specs.names[name])
            return
        if id(lines) in self.seen:
            return
        self.seen.add(id(lines))
        for line in lines:
            for word in words(line):
                self.reach_word(path, specs, word)
        self.part.append((crate_of(path), path, name, len(lines)))

    def reach_word(self, path, specs, word):
        base, _, field = word.partition(".")
        sign = f"◌{word}◌"
        if base in specs.modules and field:
            self.reach(specs.modules[base], field.split(".")[0])
        elif base in specs.names:
            self.reach(*specs.names[base])
        elif base in specs.lines:
            self.reach_definition(path, base)
        elif sign in specs.names:
            self.reach(*specs.names[sign])
        elif sign in specs.lines:
            self.reach_definition(path, sign)


def crate_of(path):
    return os.path.relpath(path, CRATES).split(os.sep)[0]


def declared(crate, name):
    """The lines of a type or trait of src/."""
    for folder, _, files in os.walk(os.path.join(CRATES, crate, "src")):
        for file in files:
            with open(os.path.join(folder, file), encoding="utf-8") as text:
                body = re.search(rf"^pub (?:enum|struct|trait) {name}\b(?:[^{{;]*{{.*?^}}|[^{{;]*;)", text.read(), re.M | re.S)
            if body:
                lines = [line.strip() for line in body[0].split("\n")]
                return len([line for line in lines if line and not line.startswith(("//", "ghost use"))])
    return 0


def told(part):
    """The files of a part in the order in which they are read to their end, with the lines of each; and the types."""
    files, types = {}, []
    for crate, path, name, count in part:
        if path is None:
            types.append((name, count))
        else:
            key = (crate, os.path.relpath(path, os.path.join(CRATES, crate, "specs"))[:-5])
            files[key] = files.pop(key, 0) + count
    rows, last = [], None
    for (crate, file), count in files.items():
        if crate != last:
            rows.append([f"`{crate}`"])
        rows[-1].append(f"`{file}` {count}")
        last = crate
    text = "; ".join(f"{row[0]} {', '.join(row[1:])}" for row in rows) + "."
    if types:
        text += " Types: " + ", ".join(f"`{name}` {count}" for name, count in types) + "."
    return sum(files.values()), sum(count for _, count in types), text


def guide():
    reader, texts, lines, of_types = Reader(), [], 0, 0
    for number, (title, purpose, roots) in enumerate(PARTS, 1):
        reader.part = []
        for root in roots:
            crate, file, name = root.split(".")
            reader.reach(f"Rattle.{crate}.specs.{file}", name)
        count, more, text = told(reader.part)
        lines, of_types = lines + count, of_types + more
        head = f"{number}. **{title}** ({count:,} lines, {more:,} of types): {purpose}. {text}"
        texts += textwrap.wrap(head, 140, subsequent_indent="   ", break_on_hyphens=False)
    head = f"All in all {lines:,} lines of definitions in {len(reader.specs)} files, and {of_types} lines of types and traits."
    return head + "\n\n" + "\n".join(texts)


def main():
    text = guide()
    if sys.argv[1:] != ["--write"]:
        print(text)
        return
    with open(PAGE, encoding="utf-8") as page:
        before, first, rest = re.split(r"(<!-- reading[^\n]*-->\n)", page.read(), maxsplit=1)
    _, last, after = re.split(r"(<!-- reading[^\n]*-->\n)", rest, maxsplit=1)
    with open(PAGE, "w", encoding="utf-8") as page:
        page.write(before + first + "\n" + text + "\n\n" + last + after)


if __name__ == "__main__":
    main()
