#!/usr/bin/env python3
"""Measures how a tree is read, at four sizes, and how it is read and written again.

    python3 bench/decode.py [--runs N]

It prints Markdown. To count the entries, the program reads all input and walks over it with the iterator, which takes
no memory, so the peak is that of the input. To write the tree again, it decodes the tree to a list whose names lie in
the input, copies that to an owned tree, and encodes it.
"""

import argparse
import hashlib
import os
import tempfile

from common import best, built_probe, columns, megabytes, print_head, print_row, run

SIZES = (25_000, 50_000, 100_000, 200_000)
HEAD = ("entries", "tree MiB", "count: wall s", "wall ns an entry", "peak MiB", "again: wall s", "wall ns an entry", "peak MiB")


def tree(size):
    """A tree of files, in their order, whose ids are the digests of their names."""
    names = (b"file-%07d.txt" % number for number in range(size))
    return b"".join(b"100644 %s\0%s" % (name, hashlib.sha1(name).digest()) for name in names)


def measure(probe, size, runs):
    """One row of the table, once the program has counted all entries and written the same bytes again."""
    with tempfile.TemporaryDirectory(prefix="gx-bench-") as folder:
        source, target = os.path.join(folder, "tree"), os.path.join(folder, "printed")
        wanted = tree(size)
        with open(source, "wb") as out:
            out.write(wanted)
        count = best([run([probe, "entries", "sha1"], source, target) for _ in range(runs)])
        with open(target, "rb") as printed:
            assert int(printed.read()) == size
        again = best([run([probe, "tree", "sha1"], source, target) for _ in range(runs)])
        with open(target, "rb") as printed:
            assert printed.read() == wanted
    print_row([f"{size:,}", megabytes(len(wanted)), *columns(count, size), *columns(again, size)])


def main():
    parser = argparse.ArgumentParser(description="Measures how trees are read.")
    parser.add_argument("--runs", type=int, default=5, help="runs of each, of which the fastest counts (5)")
    runs = parser.parse_args().runs
    probe = built_probe()
    print(f"Best of {runs} runs.\n")
    print_head(HEAD)
    for size in SIZES:
        measure(probe, size, runs)


if __name__ == "__main__":
    main()
