#!/usr/bin/env python3
"""Measures what an edit costs: commits of one file at some depth in trees of more and more files, one commit of many
files, and paths that are long and share all but their ends.

    python3 bench/edits.py [--runs N] [--commits N] [--files N ..] [--instructions]

It prints Markdown. A commit should cost what its path touches, whatever else is in the tree; many files and long paths
should cost time in proportion to the script. With `--instructions` the first two run under callgrind too, which counts
instructions, the same on each run. The ids are worked out here, apart from the program.
"""

import argparse
import os
import tempfile

from common import Failed, best, built_program, ids_of_replies, instructions, megabytes, print_head, print_row, run
from history import EMAIL, NAME, Folder, object_id

FILES = (1_000, 10_000, 100_000)
DEPTHS = (1, 3, 8)
MANY = (5_000, 20_000, 60_000)
LONG = (16, 32, 64)
# A commit has at most 65,536 edits.
CHUNK = 50_000


class Script:
    """A line of commits on HEAD, with the id of the last. The folder gives the id of the root."""

    def __init__(self, target, root=None):
        self.target = target
        self.root = Folder() if root is None else root
        self.parent = None
        self.number = 0

    def commit(self, files):
        self.number += 1
        moment, message = 1000 + self.number, b"g%d\n" % self.number
        parent = b"parent %s\n" % self.parent if self.parent else b""
        self.target.write(b"commit HEAD\nauthor %d 0 %s\t%s\ncommitter %d 0 %s\t%s\n" % (moment, NAME, EMAIL, moment, NAME, EMAIL))
        self.target.write(b"%smessage %d\n%s\n" % (parent, len(message), message))
        for path, content in files:
            self.target.write(b"put file %d %s\n%s\n" % (len(content), path, content))
            self.root.put(path.split(b"/"), object_id(b"blob", content))
        self.target.write(b"end\n")
        who = b"%s <%s> %d +0000" % (NAME, EMAIL, moment)
        self.parent = object_id(b"commit", b"tree %s\n%sauthor %s\ncommitter %s\n\n%s" % (self.root.id(), parent, who, who, message))


class Chain:
    """A file's folder far below the root, each folder above it with one entry of the same name."""

    def __init__(self, depth):
        self.depth = depth
        self.lowest = Folder()

    def put(self, path, blob):
        self.lowest.put(path[self.depth:], blob)

    def id(self):
        below = self.lowest.id()
        for _ in range(self.depth):
            below = object_id(b"tree", b"40000 a\0" + bytes.fromhex(below.decode()))
        return below


def base_files(count):
    """Files that no later edit touches, twenty in a directory."""
    for number in range(count):
        yield b"bulk/d%d/e%d/f%d" % (number // 2000, number // 20 % 100, number), b"%d\n" % number


def write_base(script, count):
    files = list(base_files(count))
    for at in range(0, count, CHUNK):
        script.commit(files[at:at + CHUNK])


def checked(program, path, replies, last, runs):
    """The fastest run of a script, whose last reply is this id."""
    measured = best([run([program, "--memory", "apply"], path, replies) for _ in range(runs)])
    if ids_of_replies(replies)[-1] != last:
        raise Failed(f"the last commit should be {last.decode()}")
    return measured


def write_edits(path, files, depth, commits):
    """A script of commits of one file at a depth, after its base, and the last commit's id."""
    above = b"".join(b"p%d/" % level for level in range(1, depth))
    with open(path, "wb") as target:
        script = Script(target)
        write_base(script, files)
        for number in range(commits):
            script.commit([(above + b"x%d" % (number % 16), b"%d\n" % number)])
    return script.parent


def measure_depths(program, files, commits, runs, counted, folder):
    path, replies = os.path.join(folder, "script"), os.path.join(folder, "replies")
    alone = checked(program, path, replies, write_edits(path, files, 1, 0), runs)
    base = instructions([program, "--memory", "apply"], path) if counted else None
    cells = []
    for depth in DEPTHS:
        taken = checked(program, path, replies, write_edits(path, files, depth, commits), runs)
        cells.append(f"{(taken.user + taken.system - alone.user - alone.system) / commits * 1e6:.1f}")
        if base:
            cells[-1] += f" ({(instructions([program, '--memory', 'apply'], path) - base) / commits:,.0f})"
    print_row([f"{files:,}", *cells])


def measure_many(program, files, runs, counted, folder):
    path, replies = os.path.join(folder, "script"), os.path.join(folder, "replies")
    with open(path, "wb") as target:
        script = Script(target)
        script.commit(list(base_files(files)))
    taken = checked(program, path, replies, script.parent, runs)
    count = instructions([program, "--memory", "apply"], path) if counted else None
    print_row([f"{files:,}", f"{taken.wall:.3f}", f"{(taken.user + taken.system) / files * 1e6:.2f}", megabytes(taken.peak),
               f"{count / files:,.0f}" if count else "-"])


def measure_long(program, megabytes_of_script, runs, folder):
    path, replies = os.path.join(folder, "script"), os.path.join(folder, "replies")
    depth = 30_000
    above = b"a/" * depth
    with open(path, "wb") as target:
        script = Script(target, Chain(depth))
        script.commit([(above + b"x%d" % number, b"") for number in range(megabytes_of_script * (1 << 20) // len(above))])
    taken = checked(program, path, replies, script.parent, runs)
    size = os.path.getsize(path) / (1 << 20)
    print_row([f"{size:.0f}", f"{taken.wall:.3f}", f"{taken.wall / size * 1e3:.1f}", megabytes(taken.peak)])


def main():
    parser = argparse.ArgumentParser(description="Measures what an edit costs.")
    parser.add_argument("--runs", type=int, default=3, help="runs of each, of which the fastest counts (3)")
    parser.add_argument("--commits", type=int, default=10_000, help="commits of one file at each depth")
    parser.add_argument("--files", type=int, nargs="+", default=FILES, help="numbers of files off the path")
    parser.add_argument("--instructions", action="store_true", help="count instructions too, by valgrind")
    options = parser.parse_args()
    program = built_program()
    print(f"Best of {options.runs} runs.\n\nOne file in each commit: processor time in microseconds a commit (and instructions).\n")
    with tempfile.TemporaryDirectory(prefix="gx-bench-") as folder:
        print_head(["files off the path", *(f"depth {depth}" for depth in DEPTHS)])
        for files in options.files:
            measure_depths(program, files, options.commits, options.runs, options.instructions, folder)
        print("\nOne commit of many files.\n")
        print_head(["files", "wall s", "cpu us a file", "peak MiB", "instructions a file"])
        for files in MANY:
            measure_many(program, files, options.runs, options.instructions, folder)
        print("\nOne commit of paths of 30,001 names that share all but the last.\n")
        print_head(["script MiB", "wall s", "ms a MiB", "peak MiB"])
        for size in LONG:
            measure_long(program, size, options.runs, folder)


if __name__ == "__main__":
    main()
