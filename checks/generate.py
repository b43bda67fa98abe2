"""The generator's commits, beside those that `git fast-import` makes of a stream that is written here from its rules.

    generate.py TOP SCRATCH

For both kinds of ids and numbers of commits from fixed seeds: the three lines over memory and over a new folder, the
same again over memory, a second run over the folder, which is refused, and the folder as a Git repository by
tools/to-git, which `git fsck --strict` passes. The last line says how many comparisons passed and failed.
"""

import os
import random
import subprocess
import sys

import from_git

MULTIPLIER, INCREMENT, MODULUS = 1103515245, 12345, 1 << 31
EMPTY = {"sha1": "4b825dc642cb6eb9a060e54bf8d69288fbee4904",
         "sha256": "6ef19b41225c5369f1c104d45d8d85efa9b057b53b14b4b9b939dd74decc5321"}
SEEDS = range(1, 7)


def numbers():
    number = 1
    while True:
        number = (number * MULTIPLIER + INCREMENT) % MODULUS
        yield number


def stream_of(count):
    """The commits as git fast-import reads them."""
    out = []
    for place, number in zip(range(1, count + 1), numbers()):
        top, inner, name = number % 10, number // 10 % 10, number // 100 % 100
        content, message = f"{place}\n", f"g{place}\n"
        out.append(f"commit refs/heads/main\nauthor Gen <gen@example.com> {1000 + place} +0000\n"
                   f"committer Gen <gen@example.com> {1000 + place} +0000\ndata {len(message)}\n{message}")
        out.append(f"M 100644 inline d{top}/e{inner}/f{name}\ndata {len(content)}\n{content}\n")
        if place % 7 == 0:
            out.append(f"D d{top}/e{(inner + 1) % 10}\n")
    return "".join(out).encode()


def git(path, *words, stdin=b""):
    done = subprocess.run(["git", "-C", path, *words], input=stdin, capture_output=True, check=True)
    return done.stdout.decode().strip()


def by_git(path, kind, count):
    """The three lines, as Git tells them of its own commits."""
    subprocess.run(["git", "init", "-q", "--bare", f"--object-format={kind}", "-b", "main", path], check=True)
    git(path, "fast-import", "--quiet", "--force", "--date-format=raw", stdin=stream_of(count))
    if count == 0:
        return f"commits 0\nroot {EMPTY[kind]}\nhead none\n"
    made = git(path, "rev-list", "--count", "main")
    return f"commits {made}\nroot {git(path, 'rev-parse', 'main^{tree}')}\nhead {git(path, 'rev-parse', 'main')}\n"


class Case:
    def __init__(self, top, scratch, kind, count):
        self.top = top
        self.kind = kind
        self.count = count
        self.path = f"{scratch}/{kind}-{count}"
        self.name = f"generate {count}, {kind}"

    def generate(self, store):
        done = subprocess.run([f"{self.top}/gx", store, "generate", str(self.count)], stdin=subprocess.DEVNULL,
                              capture_output=True, check=False)
        return done.returncode, done.stdout.decode()

    def compare(self, score):
        wanted = (0, by_git(f"{self.path}.wanted.git", self.kind, self.count))
        memory = "--memory" if self.kind == "sha1" else "--memory-sha256"
        folder = self.path if self.kind == "sha1" else f"sha256:{self.path}"
        score.same(f"{self.name}, in memory", wanted, self.generate(memory))
        score.same(f"{self.name}, in memory again", wanted, self.generate(memory))
        score.same(f"{self.name}, in a folder", wanted, self.generate(folder))
        refused = (1 if self.count else 0, f"commits 0\nroot {EMPTY[self.kind]}\nhead none\n")
        score.same(f"{self.name}, in that folder once more", refused, self.generate(folder))
        score.same(f"{self.name}, as a repository of Git", self.commits(f"{self.path}.wanted.git"), self.taken_out())

    def commits(self, path):
        return git(path, "log", "--format=%H %T %P", "--all")

    def taken_out(self):
        path = f"{self.path}.git"
        done = subprocess.run([sys.executable, f"{self.top}/tools/to-git", self.path, path], capture_output=True,
                              check=False)
        if done.returncode != 0:
            return f"to-git: {done.stderr.decode()}"
        done = subprocess.run(["git", "-C", path, "fsck", "--strict", "--full"], capture_output=True, check=False)
        return self.commits(path) if done.returncode == 0 else done.stderr.decode()


def main():
    top, scratch = sys.argv[1:]
    score = from_git.Score()
    os.environ.update(GIT_CONFIG_GLOBAL="/dev/null", GIT_CONFIG_NOSYSTEM="1")
    for kind in ("sha1", "sha256"):
        for count in (0, 1, 2, 7):
            Case(top, scratch, kind, count).compare(score)
    for seed in SEEDS:
        kind = "sha1" if seed % 3 else "sha256"
        Case(top, scratch, kind, random.Random(f"generate {seed}").randrange(8, 600)).compare(score)
    Case(top, scratch, "sha1", 2000).compare(score)
    print(f"{score.passed} passed, {score.failed} failed")


main()
