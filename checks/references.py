"""Random histories of edits of references, made by store_probe and by Git.

    references.py PROBE SCRATCH [SEED..]

Each seed makes a history for each kind of ids: lists of updates and deletions by `git update-ref --stdin`, and symbolic
names by `git symbolic-ref`. Both sides accept a step or refuse it, a single edit for the same cause. At the end the names and
ids are those of `git for-each-ref`, symbolic names and logs what Git's files say, and parts of names mean what they mean to
`git cat-file`. The last line says how many comparisons passed and failed.

What Git does otherwise (docs/DIFFERENCES.md) is left out of a history, or of what is compared:

- HEAD alone leads to its branches, and no other edit names these: Git also tells HEAD what becomes of its branch.
- No more than four symbolic names follow one another.
- A symbolic name that leads somewhere is not overwritten by an id, and none is expected to have one: Git compares and
  tells the id at the end. HEAD stays symbolic, as Git can't do without it.
- What is deleted is there, or expected to be: Git refuses to delete what could not be made beside other names.
- A forced update has another id than what is there: Git makes no log for one that changes nothing.
- With the setting `false` nothing is forced: Git writes forced lines all the same.
- In a namespace all logs are written. Git has no call that edits references in one, so it gets the stored names, by which it
  would choose the logs.
- Of the lines in logs, those that keep the id count on neither side, and of Git's neither those of `git symbolic-ref`, which
  have no message, nor those that tell a deletion, which stand in the logs of the names that led there.
"""

import os
import random
import re
import shutil
import subprocess
import sys

SEEDS = range(1, 25)
KINDS = ("sha1", "sha256")
MODES = {"normal": "true", "always": "always", "disable": "false"}
WHO = {"NAME": "A", "EMAIL": "a@x", "DATE": "@1 +0000"}
# Some are directories of others.
NAMES = ("refs/heads/a", "refs/heads/a/b", "refs/heads/a-b", "refs/heads/main/x", "refs/heads/b/c/d", "refs/heads/b", "refs/tags/t",
         "refs/tags/t/u", "refs/tags/a", "refs/remotes/o/m", "refs/remotes/a", "refs/notes/n", "refs/x/y", "refs/x")
SYMBOLIC = ("refs/heads/s", "refs/tags/s", "refs/remotes/o/HEAD")
BRANCHES = ("refs/heads/main", "refs/heads/deep/main")
ALL = ("HEAD", *SYMBOLIC, *BRANCHES, *NAMES)
# Parts of names, which may stand for several of them.
PARTS = ("a", "a/b", "a-b", "heads/a", "tags/a", "main/x", "b/c/d", "b", "t", "t/u", "o/m", "notes/n", "n", "x/y", "x", "refs/x")
SPACES = {"-": "", "foo": "refs/namespaces/foo/", "foo/bar": "refs/namespaces/foo/refs/namespaces/bar/"}
# How Git says what is refused.
REFUSALS = {"reference already exists": "must-not-exist", "but expected": "reference-out-of-date",
            "unable to resolve reference": "must-exist", "cannot create": "name-conflict", "cannot process": "name-conflict",
            "Not a directory": "name-conflict", "Is a directory": "name-conflict", "multiple updates": "duplicate-edit"}


class Repository:
    """A bare repository whose references are files."""

    def __init__(self, path, kind):
        self.path = path
        self.env = dict(os.environ)
        self.env.update({f"GIT_{role}_{key}": word for role in ("AUTHOR", "COMMITTER") for key, word in WHO.items()})
        self.git("init", "-q", "--bare", "--initial-branch=main", f"--object-format={kind}", path)
        tree = self.git("mktree", stdin="")[1].strip()
        self.ids = [self.git("commit-tree", "-m", str(number), tree)[1].strip() for number in range(4)]
        self.null = "0" * len(self.ids[0])

    def git(self, *words, stdin=None):
        """Whether the command succeeds, what it prints, and what it complains of."""
        place = [] if words[0] == "init" else ["--git-dir", self.path]
        done = subprocess.run(["git", *place, *words], input=stdin, capture_output=True, text=True, env=self.env)
        return done.returncode == 0, done.stdout, done.stderr

    def renew(self, mode):
        for folder in ("refs", "logs"):
            shutil.rmtree(f"{self.path}/{folder}", ignore_errors=True)
        os.makedirs(f"{self.path}/refs")
        self.git("config", "core.logAllRefUpdates", MODES[mode])
        self.git("symbolic-ref", "HEAD", BRANCHES[0])

    def target(self, name):
        """What a name's file says: an id, a name, or None without one."""
        try:
            with open(f"{self.path}/{name}") as file:
                return file.read().strip().removeprefix("ref: ")
        except (FileNotFoundError, IsADirectoryError, NotADirectoryError):
            return None

    def end(self, name):
        """The id at the end of a name's chain. A cycle has none."""
        found = self.target(name)
        for _ in SYMBOLIC:
            if is_name(found):
                found = self.target(found)
        return None if is_name(found) else found

    def references(self, spaces):
        """The stored names with their targets. Git prints the ends of symbolic names, so their files are read."""
        listed = (line.split(" ") for line in self.git("for-each-ref", "--format=%(refname) %(objectname)")[1].splitlines())
        found = {name: id for name, id in listed}
        for name in (SPACES[space] + name for space in spaces for name in ("HEAD", *SYMBOLIC)):
            if is_name(target := self.target(name)):
                found[name] = target
        return found

    def found(self, parts):
        """The id of the first reference that each part of a name may mean, or None. (gitrevisions(7))"""
        lines = self.git("cat-file", "--batch-check=%(objectname)", stdin="".join(f"{part}\n" for part in parts))[1].splitlines()
        return [None if line.endswith(" missing") else line for line in lines]

    def log(self, name):
        """The lines of a name's log that count."""
        try:
            with open(f"{self.path}/logs/{name}", newline="\n") as file:
                lines = [line.rstrip("\n").replace("\t", "\\t") for line in file]
        except (FileNotFoundError, IsADirectoryError, NotADirectoryError):
            return []
        return [line for line in counted(lines) if "\\t" in line and line.split(" ")[1] != self.null]


def is_name(target):
    return target is not None and (target == "HEAD" or "/" in target)


def counted(lines):
    return [line for line in lines if line.split(" ")[0] != line.split(" ")[1]]


class Edit:
    """An update to an id or, with None, a deletion."""

    def __init__(self, rng, repository, prefix, forced):
        self.name = rng.choice(("HEAD",) * 4 + SYMBOLIC * 2 + NAMES)
        here = repository.target(prefix + self.name)
        end = repository.end(prefix + self.name)
        leads = is_name(here)
        self.id = None if rng.random() < 0.3 else rng.choice([id for id in repository.ids if not forced or id != end])
        self.deref = rng.random() < 0.7
        if self.name == "HEAD" or leads and self.id and end:
            self.deref = True
        self.expected = "any"
        if self.deref or not leads:
            right = [end] if end else ["absent"] if self.id else []
            free = ["any", "absent"] if self.id else ["any"] if end else []
            self.expected = rng.choice([*free, *right * 3, rng.choice(repository.ids)])

    def row(self, forced):
        new = self.id or "delete"
        expected = self.expected if self.expected in ("any", "absent") else f"!{self.expected}"
        how = [word for word, counts in (("deref", self.deref), ("force", forced)) if counts]
        return f"{self.name} {new} {expected} {','.join(how) or '-'}"

    def line(self, prefix, null):
        words = ["delete" if self.id is None else "update", prefix + self.name]
        words += [self.id] if self.id else []
        words += [] if self.expected == "any" else [null if self.expected == "absent" else self.expected]
        return ("" if self.deref else "option no-deref\n") + " ".join(words) + "\n"


def refusal(complaint):
    return next((kind for text, kind in REFUSALS.items() if text in complaint), complaint.strip() or "nothing")


class History:
    """A row of the program, and what Git says of its steps: whether they are accepted, and what is there at their end."""

    def __init__(self, seed, kind, repository):
        self.rng, self.kind, self.repository = random.Random(f"{seed} {kind}"), kind, repository
        self.mode = self.rng.choice(["normal", "normal", "always", "disable"])
        self.spaces = tuple(SPACES) if self.mode == "always" else ("-",)
        self.steps, self.wanted = [], []
        repository.renew(self.mode)
        for _ in range(self.rng.randrange(10, 40)):
            space = self.rng.choice(self.spaces)
            self.add_symbolic(space) if self.rng.random() < 0.2 else self.add_edits(space)
        self.add_ends()

    def add(self, step, wanted):
        self.steps.append(step)
        self.wanted.append(wanted)

    def add_edits(self, space):
        forced = self.mode != "disable" and self.rng.random() < 0.15
        count = self.rng.choice([1, 1, 1, 2, 3, 5])
        edits = [Edit(self.rng, self.repository, SPACES[space], forced) for _ in range(count)]
        options = ["--create-reflog"] if forced else []
        lines = "".join(edit.line(SPACES[space], self.repository.null) for edit in edits)
        made, _, complaint = self.repository.git("update-ref", *options, "-m", "m", "--stdin", stdin=lines)
        words = " ".join(edit.row(forced) for edit in edits)
        self.add(f"edit {space} {self.mode} someone {words}", ("made" if made else refusal(complaint), count))

    def add_symbolic(self, space):
        name = self.rng.choice(("HEAD", *SYMBOLIC))
        target = self.rng.choice(BRANCHES if name == "HEAD" else ("HEAD", *SYMBOLIC, *NAMES))
        made, _, complaint = self.repository.git("symbolic-ref", SPACES[space] + name, SPACES[space] + target)
        self.add(f"edit {space} {self.mode} someone {name} {target} any -", ("made" if made else refusal(complaint), 1))

    def add_ends(self):
        there = self.repository.references(self.spaces)
        for space in self.spaces:
            prefix = SPACES[space]
            shown = sorted(name[len(prefix):] for name in there if name.startswith(prefix + "refs/"))
            self.add(f"iterate {space} refs/", " ".join(shown) or "none")
            for name in ALL:
                target = there.get(prefix + name)
                kind = "symbolic" if is_name(target) else "object"
                self.add(f"find {prefix}{name}", f"{kind} {target}" if target else "none")
                self.add(f"log {prefix}{name}", self.repository.log(prefix + name))

        for part, id in zip(PARTS, self.repository.found(PARTS)):
            self.add(f"reference - {part}", re.compile(rf"\S+ object {id}" if id else "none"))

    def row(self):
        return f"store {self.kind} {' ; '.join(self.steps)} = ?"


REFUSED = {*REFUSALS.values(), "cycle", "depth-limit-exceeded"}


def agrees(wanted, found):
    """Whether an answer is what Git says. Of several edits, and of a cycle, the causes may differ."""
    if isinstance(wanted, list):
        return counted(re.findall(r'"([^"]*)"', found)) == wanted
    if isinstance(wanted, re.Pattern):
        return wanted.fullmatch(found) is not None
    if isinstance(wanted, str):
        return found == wanted
    said, edits = wanted
    kind = found.split(" ")[0]
    if said == "made" or kind not in REFUSED:
        return said == "made" and kind not in REFUSED
    return said in REFUSED and (said == kind or edits > 1 or kind == "cycle")


def answers(probe, rows):
    done = subprocess.run([probe], input="".join(f"{row}\n" for row in rows), capture_output=True, text=True, check=True)
    said = [line.split(" = ", 1)[1].split(" ; ") for line in done.stdout.splitlines()]
    if len(said) != len(rows):
        sys.exit(f"{len(said)} answers to {len(rows)} rows")
    return said


def main():
    probe, scratch, *seeds = sys.argv[1:]
    repositories = {kind: Repository(f"{scratch}/references-{kind}.git", kind) for kind in KINDS}
    chosen = [int(word) for word in seeds] or SEEDS
    histories = [(seed, History(seed, kind, repositories[kind])) for seed in chosen for kind in KINDS]
    passed = failed = 0
    for (seed, history), said in zip(histories, answers(probe, [history.row() for _, history in histories])):
        if len(said) != len(history.steps):
            sys.exit(f"seed {seed} {history.kind}: {len(said)} answers to {len(history.steps)} steps: {said[-1]}")
        for step, wanted, found in zip(history.steps, history.wanted, said):
            if agrees(wanted, found):
                passed += 1
                continue
            failed += 1
            print(f"FAIL  seed {seed} {history.kind}: {step}\n      git      {wanted}\n      gx_refs  {found}")
    print(f"ok    {passed} edits, listings, targets, logs and parts of names are Git's" if failed == 0 else f"FAIL  {failed} edits or their ends")
    print(f"{passed} passed, {failed} failed")


if __name__ == "__main__":
    main()
