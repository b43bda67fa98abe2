#!/usr/bin/env python3
"""Measures edits of many references: made in lists of 1,000, listed under a prefix, found by short names, and edited one by
one, beside `git update-ref --stdin`, `git for-each-ref` and `git cat-file --batch-check`, with loose and packed references.

    python3 bench/references.py [--runs N] [--sizes SIZE ..] [--counted SIZE] [--program PROGRAM]

It prints Markdown. `store_probe` makes the references of each run anew in memory, so what making them alone takes is measured
too and taken off. One edit, one name found and one name listed should cost the same however many references there are, but
for the depth of the store's ordered map. Up to a size instructions are counted too, where valgrind is. Both sides must list the
same names.
"""

import argparse
import os
import shutil
import subprocess
import tempfile

from common import TOP, Failed, GitStore, best, instructions, megabytes, print_head, print_row, run

SIZES = (1_000, 10_000, 100_000)
LIST = 1_000
# How many names are found, and edits made, one by one.
SINGLE = 1_000
ID = "e69de29bb2d1d6434b8b29ae775ad8c2e48c5391"
OTHER = "4b825dc642cb6eb9a060e54bf8d69288fbee4904"
CASES = ("listed", "found", "edited")
HEAD = ("references", "made, us each", "listed, us a name", "found, us each", "edited, us each", "peak MiB")


def names(size):
    """Names in directories of 1,000; none has a log, as they are tags."""
    return [f"g{number // LIST}/t{number}" for number in range(size)]


def chosen(size):
    """Names from all over, some of them again where there are few."""
    return [f"g{number // LIST}/t{number}" for number in (step * 7919 % size for step in range(SINGLE))]


def edit(name, new, expected):
    return f"refs/tags/{name} {new} {expected} -"


def steps(case, size):
    if case == "listed":
        return ["iterate - refs/tags/"]
    if case == "found":
        return [f"reference - {name}" for name in chosen(size)]
    if case == "edited":
        return [f"edit - normal none {edit(name, OTHER, 'any')}" for name in chosen(size)]
    return []


def write_row(path, case, size):
    every = names(size)
    made = ["edit - normal none " + " ".join(edit(name, ID, "absent") for name in every[at:at + LIST])
            for at in range(0, size, LIST)]
    with open(path, "w") as rows:
        rows.write(f"store sha1 {' ; '.join([*made, *steps(case, size)])} = x\n")


class Probe:
    def __init__(self, program, folder, runs):
        self.program, self.folder, self.runs = program, folder, runs
        self.rows, self.printed = os.path.join(folder, "rows"), os.path.join(folder, "printed")

    def measure(self, case, size):
        """The fastest run, and the answer to its last step."""
        write_row(self.rows, case, size)
        measured = best([run([self.program], self.rows, self.printed) for _ in range(self.runs)])
        with open(self.printed) as printed:
            return measured, printed.read().split(" ; ")[-1].split()

    def count(self, case, size):
        write_row(self.rows, case, size)
        return instructions([self.program], self.rows)


def measure_ours(probe, size, counted):
    made, _ = probe.measure("made", size)
    counts = {"listed": size, "found": SINGLE, "edited": SINGLE}
    base = probe.count("made", size) if counted else None
    cells = [f"{(made.user + made.system) / size * 1e6:.1f}" + (f" ({base / size:,.0f})" if base else "")]
    listed = []
    for case in CASES:
        taken, answer = probe.measure(case, size)
        if case == "listed":
            listed = answer
        cells.append(f"{max(taken.user + taken.system - made.user - made.system, 0) / counts[case] * 1e6:.1f}")
        if base:
            cells[-1] += f" ({(probe.count(case, size) - base) / counts[case]:,.0f})"
    print_row([f"{size:,}, ours", *cells, megabytes(made.peak)])
    return listed


class Git:
    """The same in a repository of Git."""

    def __init__(self, git, folder):
        self.store, self.source, self.printed = GitStore(git, folder), os.path.join(folder, "source"), os.path.join(folder, "said")
        self.store.renew()
        for kind in ("blob", "tree"):
            self.measure(["hash-object", "-w", "-t", kind, "--stdin"], "")

    def measure(self, words, text):
        with open(self.source, "w") as source:
            source.write(text)
        return self.store.measure(words, self.source, self.printed)

    def edits(self, lists):
        """Each list is a transaction of its own."""
        text = "".join("start\n" + "".join(f"update refs/tags/{name} {id}\n" for name in some) + "commit\n" for some, id in lists)
        return self.measure(["update-ref", "--stdin"], text)

    def cells(self, size):
        listed = self.measure(["for-each-ref", "--format=%(refname)", "refs/tags/"], "")
        found = self.measure(["cat-file", "--batch-check"], "".join(f"{name}\n" for name in chosen(size)))
        edited = self.edits([([name], OTHER) for name in chosen(size)])
        return [f"{taken.wall / count * 1e6:.1f}" for taken, count in ((listed, size), (found, SINGLE), (edited, SINGLE))]

    def names(self):
        return [name.decode() for name in self.store.ask("for-each-ref", "--format=%(refname)", "refs/tags/")]


def measure_git(git, folder, size, listed):
    side, every = Git(git, folder), names(size)
    made = side.edits([(every[at:at + LIST], ID) for at in range(0, size, LIST)])
    print_row([f"{size:,}, Git, loose", f"{made.wall / size * 1e6:.1f}", *side.cells(size), megabytes(made.peak)])
    side.measure(["pack-refs", "--all"], "")
    print_row([f"{size:,}, Git, packed", "-", *side.cells(size), "-"])
    if sorted(side.names()) != sorted(listed):
        raise Failed("both sides should list the same names")


def built(program):
    if program:
        return program
    build = '. "$1/checks/build.sh"; top=$1; build store_probe'
    subprocess.run(["bash", "-c", build, "bench", TOP], check=True, stdin=subprocess.DEVNULL)
    return os.path.join(TOP, "crates", "store_probe", "out", "store_probe")


def main():
    parser = argparse.ArgumentParser(description="Measures edits of many references.")
    parser.add_argument("--runs", type=int, default=3, help="runs of each of ours, of which the fastest counts (3)")
    parser.add_argument("--sizes", type=int, nargs="+", default=SIZES, help="numbers of references")
    parser.add_argument("--counted", type=int, default=10_000, help="up to this size instructions are counted (10,000)")
    parser.add_argument("--program", help="a built store_probe")
    options = parser.parse_args()
    program, git = built(options.program), shutil.which("git")
    print(f"Ours in processor time (and instructions), the best of {options.runs} runs; Git's in wall time.\n")
    with tempfile.TemporaryDirectory(prefix="gx-bench-") as folder:
        probe = Probe(program, folder, options.runs)
        print_head(HEAD)
        for size in options.sizes:
            listed = measure_ours(probe, size, size <= options.counted)
            if git:
                measure_git(git, folder, size, listed)


if __name__ == "__main__":
    main()
