#!/usr/bin/env python3
"""Measures walks over histories that are made up, beside `git rev-list` without a commit-graph, and traversals of trees.

    python3 bench/walks.py [--runs N] [--sizes SIZE ..] [--program PROGRAM]

It prints Markdown. `walk_probe` makes each history in memory and walks it in one process, so the time of making it alone
is measured too and taken off. Git reads the same history from a pack, whose commits are not compressed. The ids that
both list must be the same, in the same order. Where valgrind is, the instructions of a walk, and of its first item alone,
are counted in the same way.
"""

import argparse
import os
import shutil
import subprocess
import tempfile

from common import (TOP, Failed, GitStore, best, instructions, megabytes, print_head, print_row, run)

SIZES = (1_000, 10_000, 100_000)
HEAD = ("history", "commits", "wall s", "made alone, wall s", "peak MiB", "peak MiB less made alone",
        "instructions a commit and edge", "instructions of the first item", "git wall s", "git peak MiB", "same ids")
TREE_HEAD = ("trees", "order", "entries", "wall s", "made alone, wall s", "peak MiB", "instructions an entry")


def parents(shape, number, size):
    """The numbers of a commit's parents, from 0."""
    if shape == "fan":
        return range(1, number) if number + 1 == size else range(0, min(number, 1))
    if shape == "cross":
        if number < 3:
            return range(0, min(number, 1))
        return range(number - 2, number) if number % 2 else range(number - 3, number - 1)
    return range(max(number - 1, 0), number)


def write_stream(shape, size, path):
    with open(path, "wb") as stream:
        for number in range(size):
            above = list(parents(shape, number, size))
            stream.write(b"commit refs/heads/main\nmark :%d\n" % (number + 1))
            for role in (b"author", b"committer"):
                stream.write(b"%s A <a@x> %d +0000\n" % (role, 1000 + number))
            stream.write(b"data 0\n")
            for place, parent in enumerate(above):
                stream.write(b"%s :%d\n" % (b"merge" if place else b"from", parent + 1))
            stream.write(b"\n")
            if not above and number:
                raise Failed("a commit without a parent")


def row_file(folder, shape, size, word):
    path = os.path.join(folder, f"{shape}-{size}-{word}.rows")
    with open(path, "w") as rows:
        rows.write(f"made {shape} {size} {word} = x\n")
    return path


def answer_of(path):
    with open(path, "rb") as answers:
        return answers.read().split(b" = ", 1)[1].split()


class Probe:
    def __init__(self, program, folder, runs):
        self.program, self.folder, self.runs = program, folder, runs

    def measure(self, shape, size, word):
        rows, printed = row_file(self.folder, shape, size, word), os.path.join(self.folder, "printed")
        measured = best([run([self.program], rows, printed) for _ in range(self.runs)])
        return measured, answer_of(printed)

    def count(self, shape, size, word):
        return instructions([self.program], row_file(self.folder, shape, size, word))


def measure_history(probe, git, shape, size, counted):
    edges = sum(len(parents(shape, number, size)) for number in range(size))
    made, _ = probe.measure(shape, size, "build")
    walked, ids = probe.measure(shape, size, "newest")
    per_item = first = "-"
    if counted:
        base = probe.count(shape, size, "build")
        if base is not None:
            per_item = f"{(probe.count(shape, size, 'newest') - base) / (size + edges):,.0f}"
            first = f"{probe.count(shape, size, 'newest-first') - base:,}"
    own = megabytes(max(walked.peak - made.peak, 0))
    row = [shape, f"{size:,}", f"{max(walked.wall - made.wall, 0):.3f}", f"{made.wall:.3f}", megabytes(walked.peak), own, per_item, first]
    if git:
        stream, listed = os.path.join(probe.folder, "stream"), os.path.join(probe.folder, "listed")
        store = GitStore(git, probe.folder)
        store.renew()
        write_stream(shape, size, stream)
        store.measure(["fast-import", "--quiet"], stream, listed)
        words = ["-c", "core.commitGraph=false", "rev-list", "main"]
        theirs = best([store.measure(words, os.devnull, listed) for _ in range(probe.runs)])
        with open(listed, "rb") as lines:
            same = lines.read().split() == ids
        row += [f"{theirs.wall:.3f}", megabytes(theirs.peak), "yes" if same else "NO"]
    print_row(row)


def measure_trees(probe, shape, order, size, counted):
    made, _ = probe.measure(shape, size, "build")
    visited, answer = probe.measure(shape, size, order)
    entries = int(answer[1])
    per_entry = "-"
    if counted:
        base = probe.count(shape, size, "build")
        if base is not None:
            per_entry = f"{(probe.count(shape, size, order) - base) / entries:,.0f}"
    print_row([f"{shape} of {size:,}", order, f"{entries:,}", f"{max(visited.wall - made.wall, 0):.3f}", f"{made.wall:.3f}",
               megabytes(visited.peak), per_entry])


def built(program):
    if program:
        return program
    build = '. "$1/checks/build.sh"; top=$1; build walk_probe'
    subprocess.run(["bash", "-c", build, "bench", TOP], check=True, stdin=subprocess.DEVNULL)
    return os.path.join(TOP, "crates", "walk_probe", "out", "walk_probe")


def main():
    parser = argparse.ArgumentParser(description="Measures walks beside git rev-list, and traversals.")
    parser.add_argument("--runs", type=int, default=3, help="runs of each, of which the fastest counts (3)")
    parser.add_argument("--sizes", type=int, nargs="+", default=SIZES, help="numbers of commits and trees")
    parser.add_argument("--counted", type=int, default=10_000, help="up to this size instructions are counted (10,000)")
    parser.add_argument("--program", help="a built walk_probe")
    options = parser.parse_args()
    program, git = built(options.program), shutil.which("git")
    print(f"Best of {options.runs} runs.\n")
    with tempfile.TemporaryDirectory(prefix="gx-bench-") as folder:
        probe = Probe(program, folder, options.runs)
        print_head(HEAD)
        for shape in ("line", "fan", "cross"):
            for size in options.sizes:
                measure_history(probe, git, shape, size, size <= options.counted)
        print()
        print_head(TREE_HEAD)
        for shape, order in (("bush", "depth"), ("bush", "breadth"), ("chain", "depth"), ("chain", "breadth")):
            for size in options.sizes:
                if (shape, order) != ("chain", "breadth") or size <= 10_000:
                    measure_trees(probe, shape, order, size, size <= options.counted)


if __name__ == "__main__":
    main()
