#!/usr/bin/env python3
"""Measures the program on three kinds of scripts, beside `git fast-import` on the same objects.

    python3 bench/bench.py [--runs N] [--scale PART] [--only CASE ..]

It prints Markdown: for each case and size the wall time, the processor time and the peak of memory of both, their
ratios, and the program's time for each object or byte, which shows whether that grows with the size. Every file lies
in a temporary folder (TMPDIR says where), which is removed at the end.

The two do not do quite the same. The program keeps its store in memory, while fast-import writes a pack and a file for
each reference, and its SHA-1 mostly looks for attacks too. Its compression is switched off, since the program does not
compress either, and so is its waiting for the disk.
"cpu" is user and system time together.
"""

import argparse
import os
import shutil
import subprocess
import sys
import tempfile

from common import (Failed, best, built_program, ids_of_replies, measure_fast_import, megabytes, print_head, print_row, ratio,
                    run, seconds)

WHO = b"1700000000 3600 Bench Example\tbench@example.org"
GIT_WHO = b"Bench Example <bench@example.org> 1700000000 +0100"
MESSAGE = b"bench\n"
PIECE = 1 << 20
PARTS = ((1, 4), (1, 2), (1, 1))


# ---- the scripts: each case yields files of commits, for the program and for Git


def letters(number):
    """The number in four letters, so that the order of names is the order of numbers."""
    digits = []
    for _ in range(4):
        number, digit = divmod(number, 26)
        digits.append(ord("a") + digit)
    return bytes(reversed(digits))


def small_file(number):
    return b"file %d, a line of some length to store\n" % number


class Files:
    """One commit of many files."""

    name = "files"
    title = "one commit of many files"
    unit = "file"
    whole = 20_000

    def commits(self, size):
        yield b"refs/heads/bench", ((b"file-%d.txt" % n, iter([small_file(n)]), len(small_file(n))) for n in range(size))


class Branches:
    """Many commits of one file, each on a branch of its own."""

    name = "branches"
    title = "many commits of one file, on as many branches"
    unit = "commit"
    whole = 20_000

    def commits(self, size):
        for n in range(size):
            yield b"refs/heads/" + letters(n), [(b"file.txt", iter([small_file(n)]), len(small_file(n)))]


class Block:
    """One commit of one large file."""

    name = "block"
    title = "one commit of one large file"
    unit = "byte"
    whole = 200 << 20

    def commits(self, size):
        yield b"refs/heads/bench", [(b"large.bin", self.pieces(size), size)]

    @staticmethod
    def pieces(size):
        piece = b"".join(b"%015d\n" % n for n in range(PIECE // 16))
        for start in range(0, size, PIECE):
            yield piece[: size - start]


CASES = (Files(), Branches(), Block())


def write_script(case, size, path):
    """The script that the program applies."""
    with open(path, "wb") as out:
        for name, files in case.commits(size):
            out.write(b"commit %s\nauthor %s\ncommitter %s\nmessage %d\n%s\n" % (name, WHO, WHO, len(MESSAGE), MESSAGE))
            for file, pieces, length in files:
                out.write(b"put file %d %s\n" % (length, file))
                out.writelines(pieces)
                out.write(b"\n")
            out.write(b"end\n")


def write_stream(case, size, path):
    """The stream that fast-import reads: the same commits."""
    with open(path, "wb") as out:
        for name, files in case.commits(size):
            out.write(b"commit %s\nauthor %s\ncommitter %s\ndata %d\n%s" % (name, GIT_WHO, GIT_WHO, len(MESSAGE), MESSAGE))
            for file, pieces, length in files:
                out.write(b"M 100644 inline %s\ndata %d\n" % (file, length))
                out.writelines(pieces)
                out.write(b"\n")
            out.write(b"\n")


# ---- measures


def measure_program(program, case, size, folder, runs):
    script, replies = os.path.join(folder, "script"), os.path.join(folder, "replies")
    write_script(case, size, script)
    measures = [run([program, "--memory", "apply"], script, replies) for _ in range(runs)]
    length = os.path.getsize(script)
    os.remove(script)
    return best(measures), length, ids_of_replies(replies)


def measure_git(git, case, size, folder, runs):
    stream = os.path.join(folder, "stream")
    write_stream(case, size, stream)
    measured, store = measure_fast_import(git, stream, folder, runs)
    return measured, store.ask("for-each-ref", "--sort=refname", "--format=%(objectname)", "refs/heads/")


# ---- the report


HEAD = ("case", "size", "script MiB", "wall s", "cpu s", "peak MiB", "wall ns a unit",
        "git wall s", "git cpu s", "git peak MiB", "wall ratio", "cpu ratio", "peak ratio", "same ids")


def measure(program, git, case, size, runs):
    """One row of the table. A failure of either side stands in it, and the other side is measured all the same."""
    ours = theirs = None
    failures = []
    with tempfile.TemporaryDirectory(prefix="gx-bench-") as folder:
        try:
            ours, length, ids = measure_program(program, case, size, folder, runs)
        except Failed as failure:
            failures.append(str(failure))
        if git:
            try:
                theirs, git_ids = measure_git(git, case, size, folder, runs)
            except (Failed, subprocess.CalledProcessError) as failure:
                failures.append(str(failure))
    row = [case.title, f"{size:,} {case.unit}s"]
    row += [megabytes(length), *seconds(ours), f"{ours.wall / size * 1e9:.1f}"] if ours else ["failed"] + ["-"] * 4
    row += seconds(theirs) if theirs else ["-"] * 3
    if ours and theirs:
        row += [ratio(ours.wall, theirs.wall), ratio(ours.user + ours.system, theirs.user + theirs.system),
                ratio(ours.peak, theirs.peak), "yes" if ids == git_ids else "NO"]
        if ids != git_ids:
            failures.append("the ids are not those of Git")
    else:
        row += ["-"] * 4
    print_row(row)
    return [f"{case.name}, {size:,} {case.unit}s: {failure}" for failure in failures]


def floor_of_peaks(folder):
    """What the measure of memory says of a command that needs next to none."""
    true = shutil.which("true")
    if not true:
        return None
    return run([true], os.devnull, os.path.join(folder, "printed")).peak


def arguments():
    parser = argparse.ArgumentParser(description="Measures the program beside git fast-import.")
    parser.add_argument("--runs", type=int, default=3, help="runs of each, of which the fastest counts (3)")
    parser.add_argument("--scale", type=float, default=1.0, help="the part of each whole size that is run (1)")
    parser.add_argument("--only", nargs="+", choices=[case.name for case in CASES], help="these cases alone")
    return parser.parse_args()


def main():
    options = arguments()
    program = built_program()
    git = shutil.which("git")
    with tempfile.TemporaryDirectory(prefix="gx-bench-") as folder:
        floor = floor_of_peaks(folder)
    print(f"Best of {options.runs} runs. The ratios are the program's time or memory over that of `git fast-import`"
          f"{'' if git else ', which is not there'}.")
    if floor:
        print(f"A peak can't be measured below {megabytes(floor)} MiB.")
    print()
    print_head(HEAD)
    failures = []
    for case in CASES:
        if options.only and case.name not in options.only:
            continue
        for part, parts in PARTS:
            size = max(1, int(case.whole * options.scale) * part // parts)
            failures += measure(program, git, case, size, options.runs)
    for failure in failures:
        print(f"\nFAILED: {failure}")
    return 1 if failures else 0


if __name__ == "__main__":
    sys.exit(main())
