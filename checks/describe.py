"""Commits of random histories, described by walk_probe, by lists of `git rev-list` and by `git describe`.

    describe.py PROBE SCRATCH [SEED]

The histories are those of walks.py. The last line says how many comparisons passed and failed.
"""

import random
import subprocess
import sys

from walks import Repository, history, some

SEEDS = range(1, 81)
DIGITS = 10


def row(most, commits, tip, names, *words):
    fields = ["describe", str(most), str(DIGITS)]
    for label, time, parents in commits:
        fields.append(f"{label}:{time}:{','.join(parents)}" if parents else f"{label}:{time}")
    fields += ["tips", tip, "names", *(f"{label}:{name}" for label, name in names.items())]
    return " ".join([*fields, *words]) + " = ?"


def by_lists(reached, most, names, tip, ids):
    """The long text, by what each commit reaches: a list in the order of `git rev-list`."""
    prefix = f"-g{ids[tip][:DIGITS]}"
    if tip in names:
        return f"{names[tip]}-0{prefix} exact"
    walk = reached(tip)
    depths = []
    for candidate in [label for label in walk if label in names][:most]:
        behind = set(reached(candidate))
        depths.append((sum(label not in behind for label in walk), candidate))
    if not depths:
        return "none"
    depth, nearest = min(depths, key=lambda pair: pair[0])
    return f"{names[nearest]}-{depth}{prefix}"


def by_git(repository, ids, most, names, tip, *options):
    """What `git describe` says, with lightweight tags of these names."""
    with open(f"{repository.path}/packed-refs", "w") as file:
        file.write("# pack-refs with: peeled fully-peeled sorted \n")
        file.writelines(f"{ids[label]} refs/tags/{name}\n" for label, name in sorted(names.items(), key=lambda pair: pair[1]))
    words = ["describe", "--tags", "--long", f"--abbrev={DIGITS}", f"--candidates={most}", *options, ids[tip]]
    done = subprocess.run(["git", "--git-dir", repository.path, *words], capture_output=True, text=True)
    said = done.stdout.strip() if done.returncode == 0 else "none"
    return said + " exact" if tip in names and said != "none" else said


def cases(rng, repository):
    """Rows, each with what is wanted and who says so."""
    kind, commits = history(rng)
    ids = repository.store(commits)
    labels = [label for label, _, _ in commits]
    names = {label: f"v{label}" for label in labels if rng.random() < rng.choice([0.05, 0.2])}
    shallow = some(labels, rng)
    most = rng.choice([1, 2, 10])
    for tip in some(labels, rng):

        def wanted(*options, **more):
            return by_lists(lambda one: repository.listed(ids, [one], *options, **more), most, names, tip, ids)

        yield row(most, commits, tip, names, "long"), wanted(), "git rev-list"
        yield row(most, commits, tip, names, "long", "first"), wanted("--first-parent"), "git rev-list"
        yield row(most, commits, tip, names, "long", "shallow", *shallow), wanted(shallow=shallow), "git rev-list"
        reached = [label for label in repository.listed(ids, [tip]) if label in names]
        if kind == "rising" and len(reached) <= most:
            yield row(most, commits, tip, names, "long"), by_git(repository, ids, most, names, tip), "git describe"
            said = by_git(repository, ids, most, names, tip, "--first-parent")
            yield row(most, commits, tip, names, "long", "first"), said, "git describe"


def answers(probe, rows):
    done = subprocess.run([probe], input="".join(f"{row}\n" for row in rows), capture_output=True, text=True, check=True)
    said = [line.split(" = ", 1)[1] for line in done.stdout.splitlines()]
    if len(said) != len(rows):
        sys.exit(f"{len(said)} answers to {len(rows)} rows")
    return said


def main():
    probe, scratch, *seeds = sys.argv[1:]
    repository = Repository(f"{scratch}/describe.git")
    compared = []
    for seed in [int(word) for word in seeds] or SEEDS:
        compared += [(seed, *case) for case in cases(random.Random(seed), repository)]
    passed = failed = 0
    for (seed, line, wanted, who), found in zip(compared, answers(probe, [line for _, line, _, _ in compared])):
        if found == wanted:
            passed += 1
        else:
            failed += 1
            print(f"FAIL  seed {seed}: {line}\n      {who:12}  {wanted}\n      gx_walk       {found}")
    print(f"ok    {passed} descriptions are what Git says" if failed == 0 else f"FAIL  {failed} descriptions")
    print(f"{passed} passed, {failed} failed")


if __name__ == "__main__":
    main()
