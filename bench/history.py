#!/usr/bin/env python3
"""Measures a line of commits on HEAD, each of one file and now and then a dropped folder, beside `git fast-import`.

    python3 bench/history.py [--runs N] [--sizes SIZE ..]

It prints Markdown: for each number of commits the wall time, the processor time and the peak of memory of both, and the
time for each commit, which shows whether that grows with the history. Each commit names the one before it, so the ids
in the script are worked out here, apart from both programs; the last id of all three must be the same.
"""

import argparse
import hashlib
import os
import shutil
import tempfile

from common import (Failed, best, built_program, ids_of_replies, measure_fast_import, print_head, print_row, ratio, run,
                    seconds)

SIZES = (500, 2_000, 8_000)
NAME, EMAIL = b"Gen", b"gen@example.com"
HEAD = ("commits", "script MiB", "wall s", "cpu s", "peak MiB", "wall us a commit",
        "git wall s", "git cpu s", "git peak MiB", "wall ratio", "same ids")


def object_id(kind, content):
    return hashlib.sha1(b"%s %d\0" % (kind, len(content)) + content).hexdigest().encode()


class Folder:
    """A directory whose id is kept until something in it changes."""

    def __init__(self):
        self.entries = {}
        self.kept = None

    def put(self, path, blob):
        self.kept = None
        if len(path) == 1:
            self.entries[path[0]] = blob
        else:
            self.entries.setdefault(path[0], Folder()).put(path[1:], blob)

    def drop(self, path):
        entry = self.entries.get(path[0])
        if entry is None:
            return
        self.kept = None
        if len(path) > 1:
            entry.drop(path[1:])
        if len(path) == 1 or not entry.entries:
            del self.entries[path[0]]

    def id(self):
        if self.kept is None:
            rows = sorted((name + b"/" if isinstance(entry, Folder) else name, name, entry) for name, entry in self.entries.items())
            self.kept = object_id(b"tree", b"".join(
                b"%s %s\0" % (b"40000" if isinstance(entry, Folder) else b"100644", name)
                + bytes.fromhex((entry.id() if isinstance(entry, Folder) else entry).decode()) for _, name, entry in rows))
        return self.kept


def edits(size):
    """For each commit its file, the file's bytes, and the folder that is dropped then, if any."""
    x = 1
    for number in range(1, size + 1):
        x = (1103515245 * x + 12345) % (1 << 31)
        a, b, c = x % 10, x // 10 % 10, x // 100 % 100
        dropped = b"d%d/e%d" % (a, (b + 1) % 10) if number % 7 == 0 else None
        yield number, b"d%d/e%d/f%d" % (a, b, c), b"%d\n" % number, dropped


def write_inputs(size, script, stream):
    """The script for the program and the stream for Git. Gives the last commit's id."""
    root, parent = Folder(), None
    with open(script, "wb") as ours, open(stream, "wb") as theirs:
        for number, path, content, dropped in edits(size):
            moment, message = 1000 + number, b"g%d\n" % number
            ours.write(b"commit HEAD\nauthor %d 0 %s\t%s\ncommitter %d 0 %s\t%s\n" % (moment, NAME, EMAIL, moment, NAME, EMAIL))
            ours.write(b"parent %s\n" % parent if parent else b"")
            ours.write(b"message %d\n%s\nput file %d %s\n%s\n" % (len(message), message, len(content), path, content))
            ours.write(b"drop %s\nend\n" % dropped if dropped else b"end\n")
            theirs.write(b"commit refs/heads/main\nauthor %s <%s> %d +0000\ncommitter %s <%s> %d +0000\n"
                         % (NAME, EMAIL, moment, NAME, EMAIL, moment))
            theirs.write(b"data %d\n%sM 100644 inline %s\ndata %d\n%s\n" % (len(message), message, path, len(content), content))
            theirs.write(b"D %s\n\n" % dropped if dropped else b"\n")
            root.put(path.split(b"/"), object_id(b"blob", content))
            if dropped:
                root.drop(dropped.split(b"/"))
            who = b"%s <%s> %d +0000" % (NAME, EMAIL, moment)
            parent = object_id(b"commit", b"tree %s\n%sauthor %s\ncommitter %s\n\n%s"
                               % (root.id(), b"parent %s\n" % parent if parent else b"", who, who, message))
    return parent


def measure(program, git, size, runs):
    with tempfile.TemporaryDirectory(prefix="gx-bench-") as folder:
        script, stream, replies = (os.path.join(folder, name) for name in ("script", "stream", "replies"))
        last = write_inputs(size, script, stream)
        ours = best([run([program, "--memory", "apply"], script, replies) for _ in range(runs)])
        ids = ids_of_replies(replies)
        if ids[-1] != last:
            raise Failed(f"the last of {size} commits is {ids[-1].decode()}, and should be {last.decode()}")
        row = [f"{size:,}", f"{os.path.getsize(script) / (1 << 20):.1f}", *seconds(ours), f"{ours.wall / size * 1e6:.1f}"]
        if git:
            theirs, store = measure_fast_import(git, stream, folder, runs)
            same = store.ask("rev-parse", "refs/heads/main") == [last]
            row += [*seconds(theirs), ratio(ours.wall, theirs.wall), "yes" if same else "NO"]
    print_row(row)


def main():
    parser = argparse.ArgumentParser(description="Measures lines of commits beside git fast-import.")
    parser.add_argument("--runs", type=int, default=3, help="runs of each, of which the fastest counts (3)")
    parser.add_argument("--sizes", type=int, nargs="+", default=SIZES, help="numbers of commits")
    options = parser.parse_args()
    program, git = built_program(), shutil.which("git")
    print(f"Best of {options.runs} runs.\n")
    print_head(HEAD)
    for size in options.sizes:
        measure(program, git, size, options.runs)


if __name__ == "__main__":
    main()
