"""Merge bases of random histories, by walk_probe and by `git merge-base`.

    bases.py PROBE SCRATCH [SEED]

The histories are those of walks.py. Git leaves the order of bases of one time open, so its list is sorted: the newest
first, of equal times the lower id. `git merge-base --octopus` follows all bases of each step, and so says the same as a fold
of first bases where each step has exactly one. The last line says how many comparisons passed and failed.
"""

import random
import subprocess
import sys

from walks import Repository, answers, history, some

SEEDS = range(1, 61)
ROUNDS = 6


class Bases:
    """The bases that Git finds in a repository."""

    def __init__(self, repository, commits):
        self.repository = repository
        self.ids = repository.store(commits)
        self.names = {id: label for label, id in self.ids.items()}
        self.times = {label: time for label, time, _ in commits}

    def ask(self, options, labels, shallow):
        """What `git merge-base` lists, as labels. The shallow commits have no parents for it."""
        place = f"{self.repository.path}/shallow-commits"
        with open(place, "w") as file:
            file.writelines(f"{self.ids[label]}\n" for label in shallow)
        words = ["git", "--git-dir", self.repository.path, "--shallow-file", place, "merge-base", *options]
        done = subprocess.run([*words, *(self.ids[label] for label in labels)], capture_output=True, text=True)
        if done.returncode > 1:
            sys.exit(done.stderr)
        return [self.names[id] for id in done.stdout.split()]

    def all(self, one, others, shallow):
        """Labels in the order of merge bases. One commit alone is its own base."""
        if not others or one in others:
            return [one]
        bases = self.ask(["--all"], [one, *others], shallow)
        return sorted(bases, key=lambda label: (-self.times[label], self.ids[label]))

    def octopus(self, one, others, shallow):
        """The base that is left after the last of the commits, and whether each of them left exactly one."""
        is_one = True
        for other in others:
            bases = self.all(one, [other], shallow)
            if not bases:
                return [], is_one
            is_one = is_one and len(bases) == 1
            one = bases[0]
        return [one], is_one


def row(call, commits, tips, shallow):
    fields = [call]
    for label, time, parents in commits:
        fields.append(f"{label}:{time}:{','.join(parents)}" if parents else f"{label}:{time}")
    return " ".join([*fields, "tips", *tips, "shallow", *shallow]) + " = ?"


def cases(rng, repository):
    """Rows, each with the bases that Git finds."""
    _, commits = history(rng)
    labels = [label for label, _, _ in commits]
    bases = Bases(repository, commits)
    for _ in range(ROUNDS):
        tips = rng.sample(labels[-8:], rng.randrange(1, min(4, len(labels)) + 1)) if len(labels) > 3 else labels
        shallow = some(labels, rng) if rng.random() < 0.3 else []
        one, *others = tips
        yield row("bases", commits, tips, shallow), bases.all(one, others, shallow)
        folded, is_one = bases.octopus(one, others, shallow)
        yield row("octopus", commits, tips, shallow), folded
        if is_one:
            yield row("octopus", commits, tips, shallow), bases.ask(["--octopus"], tips, shallow)


def main():
    probe, scratch, *seeds = sys.argv[1:]
    repository = Repository(f"{scratch}/bases.git")
    compared = []
    for seed in [int(word) for word in seeds] or SEEDS:
        compared += [(seed, *case) for case in cases(random.Random(seed), repository)]
    passed = failed = 0
    for (seed, line, wanted), found in zip(compared, answers(probe, [line for _, line, _ in compared])):
        if found == wanted:
            passed += 1
        else:
            failed += 1
            print(f"FAIL  seed {seed}: {line}\n      git      {' '.join(wanted)}\n      gx_walk  {' '.join(found)}")
    print(f"ok    {passed} merge bases are those of git merge-base" if failed == 0 else f"FAIL  {failed} merge bases")
    print(f"{passed} passed, {failed} failed")


if __name__ == "__main__":
    main()
