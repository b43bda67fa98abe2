#!/usr/bin/env python3
"""Measures how mailmaps are read and asked, at three sizes, beside `git check-mailmap`.

    python3 bench/mailmap.py [--runs N]

It prints Markdown. A mailmap of N lines, of the four forms by turns and each for an email of its own, is read once, and N
identities are asked, in another order and in other letters. What both print is compared.
"""

import argparse
import os
import random
import subprocess
import sys
import tempfile

from common import best, built_probe, git_env, megabytes, print_head, print_row, run

SIZES = (25_000, 50_000, 100_000)
HEAD = ("lines", "mailmap MiB", "wall s", "wall ns a line", "peak MiB", "wall s, git", "peak MiB, git")


def line(number):
    old = "<old%d@example.com>" % number
    forms = ("New %d %s", "<new%d@example.com> %s", "New %d <new%d@example.com> %s", "New %d <new%d@example.com> Old %d %s")
    form = forms[number % 4]
    return form % ((number,) * (form.count("%") - 1) + (old,))


def written(size, folder):
    """The files that hold a mailmap, the identities that are asked, and both as gx_probe reads them."""
    rand = random.Random(size)
    mailmap = "".join(line(number) + "\n" for number in range(size)).encode()
    asked = ["old %d <OLD%d@Example.com>" % (number, number) for number in range(size)]
    rand.shuffle(asked)
    asked = ("\n".join(asked) + "\n").encode()
    texts = {"mailmap": mailmap, "asked": asked, "both": b"%d\n" % len(mailmap) + mailmap + asked}
    for name, text in texts.items():
        with open(os.path.join(folder, name), "wb") as out:
            out.write(text)
    return len(mailmap)


def same(first, second):
    with open(first, "rb") as one, open(second, "rb") as other:
        return one.read() == other.read()


def measure(probe, size, runs):
    with tempfile.TemporaryDirectory(prefix="gx-bench-") as folder:
        path = lambda name: os.path.join(folder, name)
        length = written(size, folder)
        subprocess.run(["git", "init", "--quiet", folder], check=True)
        ours = best([run([probe, "mailmap"], path("both"), path("found")) for _ in range(runs)])
        words = ["git", "-C", folder, "-c", "mailmap.file=" + path("mailmap"), "check-mailmap", "--stdin"]
        theirs = best([run(words, path("asked"), path("wanted"), git_env()) for _ in range(runs)])
        if not same(path("found"), path("wanted")):
            sys.exit("mailmap: Git resolves the identities otherwise")
    return ours, theirs, length


def main():
    parser = argparse.ArgumentParser(description=__doc__.splitlines()[0])
    parser.add_argument("--runs", type=int, default=2, help="of each case the best of so many runs counts")
    runs = parser.parse_args().runs
    probe = built_probe()
    print_head(HEAD)
    for size in SIZES:
        ours, theirs, length = measure(probe, size, runs)
        print_row((f"{size:,}", megabytes(length), f"{ours.wall:.2f}", f"{ours.wall / size * 1e9:.0f}",
                   megabytes(ours.peak), f"{theirs.wall:.2f}", megabytes(theirs.peak)))


if __name__ == "__main__":
    main()
