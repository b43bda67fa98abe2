#!/usr/bin/env python3
"""Measures the generator's commits in memory and in a folder, beside `git fast-import`.

    python3 bench/folder.py [--runs N] [--sizes SIZE ..]

It prints Markdown: for each number of commits the wall time in memory, in a folder, and of `git fast-import` of the
same commits into a pack and into loose objects, each also for one commit, and the time in which the folder then opens.
The id of the last commit must be the same everywhere. The generator makes at most 20,000 commits: of more, a script of
the same commits is applied, whose parents are Git's ids, so that its reading is measured too.
"""

import argparse
import os
import shutil
import subprocess
import tempfile

from common import Failed, best, built_program, git_env, print_head, print_row, ratio, run

SIZES = (2_000, 20_000, 100_000)
# The most that `generate` makes.
MOST = 20_000
HEAD = ("commits", "memory s", "us a commit", "folder s", "us a commit", "git pack s", "us a commit", "git loose s",
        "us a commit", "folder to loose", "opens ms", "same ids")
# As many objects as this are unpacked after an import.
UNPACKED = {"pack": 0, "loose": 1_000_000_000}


# ---- the generator's commits


def commits(count):
    """The place of each commit, the path of its file, and the directory that it drops, if any."""
    number = 1
    for place in range(1, count + 1):
        number = (number * 1103515245 + 12345) % (1 << 31)
        top, inner, name = number % 10, number // 10 % 10, number // 100 % 100
        dropped = f"d{top}/e{(inner + 1) % 10}" if place % 7 == 0 else None
        yield place, f"d{top}/e{inner}/f{name}", dropped


def write_stream(path, count):
    """The commits as git fast-import reads them."""
    with open(path, "w", encoding="ascii") as out:
        for place, file, dropped in commits(count):
            out.write(f"commit refs/heads/main\ncommitter Gen <gen@example.com> {1000 + place} +0000\n"
                      f"data {len(str(place)) + 2}\ng{place}\n"
                      f"M 100644 inline {file}\ndata {len(str(place)) + 1}\n{place}\n\n")
            if dropped:
                out.write(f"D {dropped}\n")


def write_script(path, ids):
    """The commits with these ids as a script."""
    parent = ""
    with open(path, "w", encoding="ascii") as out:
        for (place, file, dropped), made in zip(commits(len(ids)), ids):
            who = f"{1000 + place} 0 Gen\tgen@example.com"
            size = len(str(place)) + 1
            out.write(f"commit HEAD\nauthor {who}\ncommitter {who}\n{parent}message {size + 1}\ng{place}\n\n"
                      f"put file {size} {file}\n{place}\n\n")
            if dropped:
                out.write(f"drop {dropped}\n")
            out.write("end\n")
            parent = f"parent {made}\n"


# ---- measures


def last_of(path):
    """The last word of a file that the program wrote: the id of the last commit."""
    with open(path, "rb") as lines:
        return lines.read().split()[-1].decode()


class Git:
    """Imports of the commits into new repositories."""

    def __init__(self, git, folder, stream):
        self.git = git
        self.folder = folder
        self.stream = stream
        self.env = git_env()

    def imported(self, kind, runs):
        """The fastest import into a pack or into loose objects, and the ids of the commits, oldest first."""
        taken, path = [], os.path.join(self.folder, f"{kind}.git")
        for _ in range(runs):
            shutil.rmtree(path, ignore_errors=True)
            subprocess.run([self.git, "init", "-q", "--bare", path], check=True, env=self.env)
            words = [self.git, "-C", path, "-c", f"fastimport.unpackLimit={UNPACKED[kind]}", "fast-import", "--quiet"]
            taken.append(run(words, self.stream, os.devnull, self.env))
        listed = subprocess.run([self.git, "-C", path, "rev-list", "--reverse", "refs/heads/main"], check=True,
                                env=self.env, capture_output=True)
        shutil.rmtree(path)
        return best(taken), listed.stdout.decode().split()


class Ours:
    """Runs of the program that make the commits: of the generator, or of a script where there is one."""

    def __init__(self, program, folder, size, script):
        self.program = program
        self.folder = folder
        self.words = ["apply"] if script else ["generate", str(size)]
        self.source = script or os.devnull
        self.lines = os.path.join(folder, "lines")

    def in_memory(self, runs):
        taken = [run([self.program, "--memory", *self.words], self.source, self.lines) for _ in range(runs)]
        return best(taken), last_of(self.lines)

    def in_folder(self, runs):
        """The fastest run over a new folder, the last commit, and the fastest opening."""
        taken, kept = [], os.path.join(self.folder, "kept")
        for _ in range(runs):
            shutil.rmtree(kept, ignore_errors=True)
            taken.append(run([self.program, kept, *self.words], self.source, self.lines))
        opens = best([run([self.program, kept, "apply"], os.devnull, os.devnull) for _ in range(runs)])
        shutil.rmtree(kept)
        return best(taken), last_of(self.lines), opens


def measure(program, git, size, runs):
    if size > MOST and not git:
        raise Failed(f"{size} commits are more than the generator makes, and a script of them needs Git's ids")
    with tempfile.TemporaryDirectory(prefix="gx-bench-") as folder:
        row, theirs, script, ids = [], None, None, []
        if git:
            stream = os.path.join(folder, "stream")
            write_stream(stream, size)
            imports = Git(git, folder, stream)
            packed, ids = imports.imported("pack", runs)
            theirs, _ = imports.imported("loose", runs)
            row = [*per_commit(packed, size), *per_commit(theirs, size)]
        if size > MOST:
            script = os.path.join(folder, "script")
            write_script(script, ids)
        ours = Ours(program, folder, size, script)
        memory, last = ours.in_memory(runs)
        kept, last_kept, opens = ours.in_folder(runs)
    if last_kept != last:
        raise Failed(f"the last of {size} commits is another one in a folder")
    row = row + [ratio(kept.wall, theirs.wall)] if theirs else [""] * 5
    same = ("yes" if ids[-1] == last else "NO") if ids else ""
    print_row([f"{size:,}", *per_commit(memory, size), *per_commit(kept, size), *row, f"{opens.wall * 1e3:.1f}", same])


def per_commit(measured, size):
    return f"{measured.wall:.2f}", f"{measured.wall / size * 1e6:.0f}"


def main():
    parser = argparse.ArgumentParser(description="Measures the generator in memory and in a folder, beside Git.")
    parser.add_argument("--runs", type=int, default=3, help="runs of each, of which the fastest counts (3)")
    parser.add_argument("--sizes", type=int, nargs="+", default=SIZES, help="numbers of commits (2000 20000 100000)")
    options = parser.parse_args()
    program, git = built_program(), shutil.which("git")
    print(f"Best of {options.runs} runs.\n")
    print_head(HEAD)
    for size in options.sizes:
        measure(program, git, size, options.runs)


if __name__ == "__main__":
    main()
