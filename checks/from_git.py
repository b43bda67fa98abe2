"""Random repositories, written as scripts by tools/from-git and run by `gx`.

    from_git.py TOP SCRATCH

Each seed makes a repository by `git fast-import`: merges, directories that become files and back, unusual names,
executable files, links, submodules, tags. The ids of the commits that the program makes are Git's own. The last line says
how many comparisons passed and failed.
"""

import os
import random
import subprocess
import sys

SEEDS = range(1, 13)
NAMES = ["a", "b", "a.b", "a-b", "dir", "Dir", "with space", "tab\there", 'quo"te', "back\\slash", "ünï", "-dash", "0"]
KINDS = ["100644", "100644", "100644", "100755", "120000", "160000"]
PEOPLE = ["A <a@x>", " <>", "Zoë Ünï <zoe@x.example>", "Long Name With Words <w@x>"]
ZONES = ["+0000", "-0330", "+0545", "+1400", "-1200"]


class Case:
    """A repository, the tool, and the program over its script."""

    def __init__(self, top, path, kind):
        self.top = top
        self.path = path
        self.kind = kind
        subprocess.run(["git", "init", "-q", "--bare", f"--object-format={kind}", path], check=True)

    def git(self, *words, stdin=None):
        return subprocess.run(["git", "-C", self.path, *words], input=stdin, capture_output=True, check=True).stdout

    def imported(self, stream):
        self.git("fast-import", "--quiet", stdin=stream)

    def tool(self, *words):
        """The status of from-git, the script, and what it said."""
        done = subprocess.run([sys.executable, f"{self.top}/tools/from-git", *words, self.path], capture_output=True,
                              check=False)
        return done.returncode, done.stdout, done.stderr.decode()

    def replies(self, script):
        store = "--memory" if self.kind == "sha1" else "--memory-sha256"
        done = subprocess.run([f"{self.top}/gx", store, "apply"], input=script, capture_output=True, check=False)
        return done.returncode, done.stdout.decode().split("\n")[:-1]

    def commits(self):
        return self.git("rev-list", "--branches", "--tags").decode().split()


def quoted(path):
    escaped = path.replace("\\", "\\\\").replace('"', '\\"')
    return f'"{escaped}"'


def data(text):
    return f"data {len(text.encode())}\n{text}\n"


class Tree:
    """The paths of a commit, each with its mode and text."""

    def __init__(self, leaves=()):
        self.leaves = dict(leaves)

    def put(self, path, leaf):
        taken = [other for other in self.leaves
                 if other == path or other.startswith(path + "/") or path.startswith(other + "/")]
        for other in taken:
            del self.leaves[other]
        self.leaves[path] = leaf

    def changed(self, rng):
        new = Tree(self.leaves)
        for _ in range(rng.randrange(1, 6)):
            path = "/".join(rng.sample(NAMES, rng.randrange(1, 4)))
            if new.leaves and rng.random() < 0.3:
                new.leaves.pop(rng.choice(sorted(new.leaves)))
            else:
                new.put(path, (rng.choice(KINDS), f"text {rng.randrange(100)}"))
        return new


def stream_of(rng, digits):
    """The commands of a random history for fast-import, and how many commits it has."""
    lines, trees = [], []
    count = rng.randrange(5, 40)
    for number in range(count):
        pool = range(max(0, number - 6), number)
        parents = rng.sample(pool, min(len(pool), rng.choice([0, 1, 1, 1, 1, 2, 3])))
        tree = (Tree() if not parents else trees[parents[0]]).changed(rng)
        trees.append(tree)
        who = f"{rng.choice(PEOPLE)} {rng.randrange(2_000_000_000)} {rng.choice(ZONES)}"
        lines.append(f"commit refs/heads/c{number}\nmark :{number + 1}\nauthor {who}\ncommitter {who}\n"
                     + data(rng.choice(["", "one line", "two\n\nlines\n", f"c{number}\n"])))
        for index, parent in enumerate(parents):
            lines.append(f"{'merge' if index else 'from'} :{parent + 1}\n")
        lines.append("deleteall\n")
        for path, (mode, text) in tree.leaves.items():
            if mode == "160000":
                lines.append(f"M 160000 {str(len(text) % 9 + 1) * digits} {quoted(path)}\n")
            else:
                lines.append(f"M {mode} inline {quoted(path)}\n{data(text)}")
        lines.append("\n")
    lines.append(f"tag v1\nfrom :{count}\ntagger A <a@x> 5 +0000\n{data('a tag')}")
    return "".join(lines).encode(), count


class Score:
    """Counts comparisons."""

    passed = 0
    failed = 0

    def same(self, name, wanted, found):
        if wanted == found:
            self.passed += 1
        else:
            self.failed += 1
            print(f"FAIL  {name}\n      wanted {wanted!r}\n      found  {found!r}"[:2000])


def random_repositories(top, scratch, score):
    for seed in SEEDS:
        kind = "sha1" if seed % 3 else "sha256"
        rng = random.Random(f"from-git {seed}")
        case = Case(top, f"{scratch}/random-{seed}", kind)
        stream, count = stream_of(rng, 40 if kind == "sha1" else 64)
        case.imported(stream)
        status, script, said = case.tool("--commits")
        score.same(f"seed {seed}: from-git ends well and says nothing", (0, ""), (status, said))
        status, replies = case.replies(script)
        score.same(f"seed {seed}: gx makes {count} commits", 0, status)
        wanted = sorted(f"ok {name}" for name in case.commits())
        score.same(f"seed {seed}: the ids are Git's", wanted, sorted(replies))


HEADERS = ["encoding ISO-8859-1", "gpgsig -----BEGIN", "mergetag object", "unheard of"]


def raw_commit(case, header="", person="A <a@x> 1 +0000", path="f"):
    """A branch whose one commit has such bytes."""
    blob = case.git("hash-object", "-w", "--stdin", stdin=b"x").strip()
    tree = case.git("mktree", "-z", stdin=b"100644 blob %s\t%s\0" % (blob, path.encode())).strip()
    lines = [b"tree " + tree, b"author " + person.encode(), b"committer A <a@x> 1 +0000"]
    if header:
        lines.append(header.encode())
    text = b"\n".join([*lines, b"", b"m\n"])
    name = case.git("hash-object", "-t", "commit", "-w", "--literally", "--stdin", stdin=text).strip().decode()
    case.git("update-ref", "refs/heads/main", name)
    return name


def what_has_no_form(top, scratch, score):
    cases = [({"header": header}, f"the header '{header.split()[0]}'", True) for header in HEADERS]
    cases += [({"person": "A <a@x> 1 +0000 more"}, "an author", True), ({"person": "A a@x"}, "an author", True),
              ({"path": "new\nline"}, "newline", False)]
    for index, (given, what, goes_on) in enumerate(cases):
        case = Case(top, f"{scratch}/odd-{index}", "sha1")
        name = raw_commit(case, **given)
        status, _, said = case.tool("--commits")
        score.same(f"{given}: status 3, and the commit is named", (3, True, True), (status, name in said, what in said))
        status, script, said = case.tool("--commits", "--keep-going")
        score.same(f"{given}: with --keep-going", 0 if goes_on else 3, status)
        if goes_on:
            score.same(f"{given}: gx makes the commit", 0, case.replies(script)[0])


def main():
    top, scratch = sys.argv[1:]
    score = Score()
    os.environ.update(GIT_CONFIG_GLOBAL="/dev/null", GIT_CONFIG_NOSYSTEM="1")
    random_repositories(top, scratch, score)
    what_has_no_form(top, scratch, score)
    missing = subprocess.run([sys.executable, f"{top}/tools/from-git", f"{scratch}/none"], capture_output=True,
                             check=False)
    score.same("no repository: status 1", 1, missing.returncode)
    print(f"{score.passed} passed, {score.failed} failed")


if __name__ == "__main__":
    main()
