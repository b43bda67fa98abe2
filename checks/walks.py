"""Random histories, walked by walk_probe and listed by `git rev-list`.

    walks.py PROBE SCRATCH [SEED]

Each seed makes a history of merges with equal, rising or random times. The commits have the bytes that walk_probe gives
the ones of a row, so that their ids are the same in Git. The last line says how many comparisons passed and failed.
"""

import random
import subprocess
import sys

SEEDS = range(1, 61)
PERSON = "A <a@x>"


def times(kind, number, rng):
    """The time of a commit: each its own, ties, all one, or against the order of the parents."""
    if kind == "rising":
        return 1000 + number
    if kind == "tied":
        return 1000 + number // 4
    if kind == "one":
        return 1000
    return rng.randrange(1000, 2000)


def history(rng):
    """Labels with their times and parents, parents first."""
    kind = rng.choice(["rising", "tied", "one", "random"])
    commits = []
    for number in range(rng.randrange(1, 60)):
        known = [label for label, _, _ in commits]
        wide = rng.random() < 0.5
        pool = known if wide else known[-5:]
        count = min(len(pool), rng.choice([0, 1, 1, 1, 1, 2, 2, 3]))
        commits.append((f"c{number}", times(kind, number, rng), rng.sample(pool, count)))
    return kind, commits


class Repository:
    """A bare repository of loose objects."""

    def __init__(self, path):
        self.path = path
        self.git("init", "-q", "--bare", path)
        self.tree = self.git("mktree", "--missing", stdin="").strip()

    def git(self, *words, stdin=None):
        place = [] if words[0] == "init" else ["--git-dir", self.path]
        done = subprocess.run(["git", *place, *words], input=stdin, capture_output=True, text=True, check=True)
        return done.stdout

    def store(self, commits):
        ids = {}
        for label, time, parents in commits:
            lines = [f"tree {self.tree}"]
            lines += [f"parent {ids[parent]}" for parent in parents]
            lines += [f"author {PERSON} {time} +0000", f"committer {PERSON} {time} +0000", "", label]
            text = "\n".join(lines)
            ids[label] = self.git("hash-object", "-t", "commit", "-w", "--stdin", stdin=text).strip()
        return ids

    def listed(self, ids, tips, *options, hidden=(), shallow=()):
        """The labels that Git lists. The shallow commits have no parents for it."""
        with open(f"{self.path}/shallow-commits", "w") as file:
            file.writelines(f"{ids[label]}\n" for label in shallow)
        words = [ids[tip] for tip in tips] + ["^" + ids[tip] for tip in hidden]
        names = {id: label for label, id in ids.items()}
        said = self.git("--shallow-file", f"{self.path}/shallow-commits", "rev-list", *options, *words, "--")
        return [names[id] for id in said.split()]


def row(order, commits, *words):
    fields = ["walk", order]
    for label, time, parents in commits:
        fields.append(f"{label}:{time}:{','.join(parents)}" if parents else f"{label}:{time}")
    return " ".join([*fields, *words]) + " = ?"


def some(labels, rng):
    return rng.sample(labels, rng.randrange(1, min(4, len(labels) + 1)))


def cases(rng, repository):
    """Rows, each with what Git lists and whether the order counts."""
    kind, commits = history(rng)
    ids = repository.store(commits)
    labels = [label for label, _, _ in commits]
    tips, hidden, shallow = some(labels, rng), some(labels, rng), some(labels, rng)
    cutoff = rng.choice(commits)[1]
    asked = ["tips", *tips]

    def listed(tips, *options, **more):
        return repository.listed(ids, tips, *options, **more)

    def difference(*options):
        behind = set(listed(hidden, *options))
        return [label for label in listed(tips, *options) if label not in behind]

    yield row("newest", commits, *asked), listed(tips), True
    yield row(f"newest:{cutoff}", commits, *asked), listed(tips, f"--max-age={cutoff}"), True
    yield row("newest", commits, *asked, "first"), listed(tips, "--first-parent"), True
    yield row("newest", commits, *asked, "shallow", *shallow), listed(tips, shallow=shallow), True
    for order in ["breadth", "oldest"]:
        yield row(order, commits, *asked), listed(tips), False
    asked += ["hide", *hidden]
    for order in ["breadth", "newest", "oldest"]:
        yield row(order, commits, *asked), difference(), False
    yield row("newest", commits, *asked, "first"), difference("--first-parent"), False
    if kind == "rising":
        yield row("newest", commits, *asked), listed(tips, hidden=hidden), True


def answers(probe, rows):
    """What the program answers to each row, as a list of labels."""
    done = subprocess.run([probe], input="".join(f"{row}\n" for row in rows), capture_output=True, text=True, check=True)
    said = [line.split(" = ", 1)[1].split() for line in done.stdout.splitlines()]
    if len(said) != len(rows):
        sys.exit(f"{len(said)} answers to {len(rows)} rows")
    return [[] if labels == ["none"] else labels for labels in said]


def main():
    probe, scratch, *seeds = sys.argv[1:]
    repository = Repository(f"{scratch}/walks.git")
    compared = []
    for seed in [int(word) for word in seeds] or SEEDS:
        compared += [(seed, *case) for case in cases(random.Random(seed), repository)]
    passed = failed = 0
    for (seed, line, wanted, ordered), found in zip(compared, answers(probe, [line for _, line, _, _ in compared])):
        if found == wanted or (not ordered and sorted(found) == sorted(wanted)):
            passed += 1
        else:
            failed += 1
            print(f"FAIL  seed {seed}: {line}\n      git      {' '.join(wanted)}\n      gx_walk  {' '.join(found)}")
    print(f"ok    {passed} walks list what git rev-list lists" if failed == 0 else f"FAIL  {failed} walks")
    print(f"{passed} passed, {failed} failed")


if __name__ == "__main__":
    main()
