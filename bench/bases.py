#!/usr/bin/env python3
"""Measures merge bases, octopus bases and descriptions over histories that are made up, beside `git merge-base --all` and
`git describe` without a commit-graph.

    python3 bench/bases.py [--runs N] [--sizes SIZE ..] [--queries N] [--program PROGRAM]

It prints Markdown. The histories are those of walks.py, and so is what is measured: `walk_probe` makes a history in memory
and answers in one process, and the time of making it alone is taken off. Git reads the same history from a pack, in one
process for each question. Both are asked the same, and what they answer is compared.
"""

import argparse
import os
import shutil
import tempfile
import time

from common import GitStore, best, megabytes, print_head, print_row
from walks import SIZES, Probe, built, parents, write_stream

HEAD = ("history", "commits", "question", "wall s", "made alone, wall s", "peak MiB", "instructions a commit and edge",
        "git wall s", "git peak MiB", "same answer")
MANY_HEAD = ("history", "commits", "queries", "all, wall s", "the first, ms", "each further one, ms",
             "each further one, instructions a commit and edge", "git, ms each", "same answers")
FOLDED = 4
COUNTED_QUERIES = 5

# Queries through one graph, times commits: a long history is asked less.
MOST = 3_000_000


class Repository:
    """A history in a store of Git, and its ids by number."""

    SETTINGS = ("-c", "core.commitGraph=false")

    def __init__(self, git, folder, shape, size):
        self.store, self.printed = GitStore(git, folder), os.path.join(folder, "printed")
        stream = os.path.join(folder, "stream")
        write_stream(shape, size, stream)
        with open(stream, "ab") as more:
            for number in named_in(size):
                more.write(b"reset refs/tags/v%d\nfrom :%d\n\n" % (number, number + 1))
        self.store.renew()
        self.store.measure(["fast-import", "--quiet"], stream, self.printed)
        self.ids = self.store.ask("rev-list", "--reverse", "main")
        self.places = {id: place for place, id in enumerate(self.ids)}

    def measure(self, words, runs):
        measured = best([self.store.measure([*self.SETTINGS, *words], os.devnull, self.printed) for _ in range(runs)])
        with open(self.printed, "rb") as lines:
            return measured, self.newest_first(lines.read().split())

    def measure_bases(self, one, other, runs):
        return self.measure(["merge-base", "--all", self.ids[one], self.ids[other]], runs)

    def measure_description(self, tip, runs):
        return self.measure(["describe", "--tags", "--long", "--abbrev=40", self.ids[tip]], runs)

    def bases(self, one, other):
        return self.newest_first(self.store.ask(*self.SETTINGS, "merge-base", "--all", self.ids[one], self.ids[other]))

    def octopus(self, one, others):
        """The first base of a commit and an other, then of that and the next, and so on."""
        for other in others:
            one = self.places[self.bases(one, other)[0]]
        return [self.ids[one]]

    def newest_first(self, bases):
        """Git leaves the order of bases open. No two commits of these histories have one time."""
        return sorted(bases, key=lambda id: -self.places.get(id, 0))


class Case:
    """A history as both sides have it."""

    def __init__(self, probe, git, shape, size, is_counted):
        self.probe, self.shape, self.size = probe, shape, size
        self.git = Repository(git, probe.folder, shape, size)
        self.parts = size + sum(len(parents(shape, number, size)) for number in range(size))
        self.made, _ = self.measure("build")
        self.base = probe.count(shape, size, "build") if is_counted else None

    def measure(self, word):
        return self.probe.measure(self.shape, self.size, word)

    def wall(self, measured):
        return max(measured.wall - self.made.wall, 0)

    def count(self, word):
        """Instructions beyond those of making the history, or None where they are not counted."""
        return None if self.base is None else self.probe.count(self.shape, self.size, word) - self.base

    def a_part(self, instructions):
        return "-" if instructions is None else f"{instructions / self.parts:,.0f}"


def named_in(size):
    """The numbers of the commits that have names."""
    return size // 10, size // 2


def questions(size):
    """What is asked: in words, as walk_probe has it, and as Git has it."""
    last, near = size - 1, size - 2
    others = range(near - 1, near - 1 - FOLDED, -1)
    names = " ".join(map(str, named_in(size)))
    yield "bases of neighbours", f"bases {near} {near - 1} 1", lambda git, runs: git.measure_bases(near, near - 1, runs)
    yield "bases far apart", f"bases {last} 1 1", lambda git, runs: git.measure_bases(last, 1, runs)
    yield "octopus", f"octopus {near} {near - 1} {FOLDED}", lambda git, runs: (None, git.octopus(near, others))
    yield "describe", f"describe {last} {names}", lambda git, runs: git.measure_description(last, runs)


def measure_questions(case):
    for said, word, ask in questions(case.size):
        ours, answer = case.measure(word)
        theirs, wanted = ask(case.git, case.probe.runs)
        of_git = (f"{theirs.wall:.3f}", megabytes(theirs.peak)) if theirs else ("-", "-")
        print_row([case.shape, f"{case.size:,}", said, f"{case.wall(ours):.3f}", f"{case.made.wall:.3f}", megabytes(ours.peak),
                   case.a_part(case.count(word)), *of_git, "yes" if wanted == answer else "NO"])


def measure_many(case, queries):
    """Bases of neighbours, each time of two that are one lower, through one graph."""
    one, queries = case.size - 2, min(queries, case.size // 2, MOST // case.size)
    words = f"bases {one} {one - 1}"
    first, _ = case.measure(f"{words} 1")
    every, answer = case.measure(f"{words} {queries}")
    further = None
    if case.base is not None:
        further = (case.count(f"{words} {COUNTED_QUERIES}") - case.count(f"{words} 1")) / (COUNTED_QUERIES - 1)
    start = time.perf_counter()
    wanted = [id for below in range(queries) for id in case.git.bases(one - below, one - below - 1)]
    theirs = time.perf_counter() - start
    print_row([case.shape, f"{case.size:,}", queries, f"{case.wall(every):.2f}", f"{case.wall(first) * 1e3:.1f}",
               f"{(every.wall - first.wall) / (queries - 1) * 1e3:.2f}", case.a_part(further), f"{theirs / queries * 1e3:.1f}",
               "yes" if wanted == answer else "NO"])


def main():
    parser = argparse.ArgumentParser(description="Measures merge bases and descriptions beside Git's commands.")
    parser.add_argument("--runs", type=int, default=3, help="runs of each, of which the fastest counts (3)")
    parser.add_argument("--sizes", type=int, nargs="+", default=SIZES, help="numbers of commits, even ones")
    parser.add_argument("--queries", type=int, default=300, help="merge bases through one graph, at most (300)")
    parser.add_argument("--counted", type=int, default=10_000, help="up to this size instructions are counted (10,000)")
    parser.add_argument("--program", help="a built walk_probe")
    options = parser.parse_args()
    program, git = built(options.program), shutil.which("git")
    if git is None:
        parser.error("there is no git to compare with")
    print(f"Best of {options.runs} runs.\n")
    with tempfile.TemporaryDirectory(prefix="gx-bench-") as folder:
        probe = Probe(program, folder, options.runs)

        def cases():
            for shape in ("line", "fan", "cross"):
                for size in options.sizes:
                    yield Case(probe, git, shape, size, size <= options.counted)

        print_head(HEAD)
        for case in cases():
            measure_questions(case)
        print()
        print_head(MANY_HEAD)
        for case in cases():
            measure_many(case, options.queries)


if __name__ == "__main__":
    main()
