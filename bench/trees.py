#!/usr/bin/env python3
"""Measures how a path map is built and written as its trees, and how it is read back, at three sizes, beside Git.

    python3 bench/trees.py [--runs N]

It prints Markdown. A map has twenty files in each directory, and a hundred directories in each one above these. The
program takes the lines of all files, puts each at its path, writes the trees to a store in memory, and prints the root;
then once more, where it also reads these trees and prints the lines of their map. Git takes the same lines into an
index (`git update-index --index-info`), and writes the trees of that (`git write-tree`), each a loose object without
compression. Both have to print one root, and the program the lines that it was given.
"""

import argparse
import hashlib
import os
import shutil
import tempfile

from common import GitStore, best, built_probe, columns, megabytes, print_head, print_row, run

SIZES = (25_000, 50_000, 100_000)
HEAD = ("paths", "directories", "lines MiB", "write: wall s", "wall ns a path", "peak MiB", "and read: wall s", "wall ns a path", "peak MiB",
        "git update-index: wall s", "git write-tree: wall s", "peak MiB")


def lines(size):
    """The lines of a map, in the order of its paths."""
    for number in range(size):
        path = b"part-%03d/folder-%02d/file-%02d.txt" % (number // 2000, number // 20 % 100, number % 20)
        yield b"100644 %s\t%s\n" % (hashlib.sha1(path).hexdigest().encode(), path)


def measure_git(git, source, folder, runs):
    """What the index took, what its trees took, and the root."""
    store, target = GitStore(git, folder), os.path.join(folder, "root")
    indexed, written = [], []
    for _ in range(runs):
        store.renew()
        indexed.append(store.measure(["update-index", "--index-info"], source, target))
        written.append(store.measure(["write-tree", "--missing-ok"], os.devnull, target))
    with open(target, "rb") as printed:
        return best(indexed), best(written), printed.read()


def measure(probe, git, size, runs):
    """One row of the table."""
    with tempfile.TemporaryDirectory(prefix="gx-bench-") as folder:
        source, target = os.path.join(folder, "lines"), os.path.join(folder, "printed")
        with open(source, "wb") as out:
            out.writelines(lines(size))
        root = best([run([probe, "root", "sha1"], source, target) for _ in range(runs)])
        with open(target, "rb") as printed:
            found = printed.read()
        paths = best([run([probe, "paths", "sha1"], source, target) for _ in range(runs)])
        with open(source, "rb") as wanted, open(target, "rb") as printed:
            assert printed.read() == wanted.read()
        theirs = ["-"] * 3
        if git:
            indexed, written, wanted = measure_git(git, source, folder, runs)
            assert found == wanted
            theirs = f"{indexed.wall:.3f}", f"{written.wall:.3f}", megabytes(max(indexed.peak, written.peak))
        row = [f"{size:,}", f"{size // 20:,}", megabytes(os.path.getsize(source)), *columns(root, size), *columns(paths, size), *theirs]
    print_row(row)


def main():
    parser = argparse.ArgumentParser(description="Measures how path maps are written and read.")
    parser.add_argument("--runs", type=int, default=3, help="runs of each, of which the fastest counts (3)")
    runs = parser.parse_args().runs
    probe, git = built_probe(), shutil.which("git")
    print(f"Best of {runs} runs.\n")
    print_head(HEAD)
    for size in SIZES:
        measure(probe, git, size, runs)


if __name__ == "__main__":
    main()
