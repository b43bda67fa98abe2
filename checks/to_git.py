"""Random repositories, written as folders of `gx` and copied back by tools/to-git.

    to_git.py TOP SCRATCH

The folders are written here, after docs/FORMATS.md, from what Git says of the repository. The repository that to-git
makes has the same objects, references and logs, and `git fsck --strict` passes. The last line says how many comparisons
passed and failed.
"""

import fcntl
import os
import random
import subprocess
import sys

SEEDS = range(1, 9)
NAMES = ["a", "b", "a.b", "a-b", "dir", "with space", "ünï", "-dash", "0"]
REFERENCES = [b"refs/heads/main", b"refs/heads/dir/one", b"refs/heads/\xc3\xa9", b"refs/tags/\xff/x", b"refs/notes/commits",
              b"refs/remotes/o/main", b"ORIG_HEAD"]


def git(path, *words, stdin=None):
    return subprocess.run(["git", "-C", path, *words], input=stdin, capture_output=True, check=True).stdout


def data(text):
    return f"data {len(text.encode())}\n{text}\n"


def stream_of(rng):
    """Commits for `git fast-import`, some of them merges."""
    count = rng.randrange(2, 9)
    lines = []
    for mark in range(1, count + 1):
        lines.append(f"commit refs/heads/main\nmark :{mark}\ncommitter A <a@x> {mark} +0100\n{data(f'c{mark}')}")
        if mark > 1:
            lines.append(f"from :{mark - 1}\n")
        if mark > 2 and rng.random() < 0.4:
            lines.append(f"merge :{rng.randrange(1, mark - 1)}\n")
        for _ in range(rng.randrange(1, 4)):
            path = "/".join(f"{depth}{rng.choice(NAMES)}" for depth in range(rng.randrange(1, 4)))
            lines.append(f"M 100644 inline {path}\n{data(str(rng.random()))}")
        lines.append("\n")
    lines.append(f"tag v1\nfrom :{count}\ntagger A <a@x> 5 +0000\n{data('a tag')}")
    return "".join(lines).encode()


def made(path, kind, rng):
    """A repository with some references, each with a log."""
    subprocess.run(["git", "init", "-q", "--bare", f"--object-format={kind}", path], check=True)
    git(path, "symbolic-ref", "HEAD", "refs/heads/main")
    git(path, "fast-import", "--quiet", stdin=stream_of(rng))
    ids = git(path, "rev-list", "--all").split()
    for name in REFERENCES:
        for number in range(rng.randrange(1, 3)):
            environment = dict(os.environ, GIT_COMMITTER_NAME="A", GIT_COMMITTER_EMAIL="a@x",
                               GIT_COMMITTER_DATE=f"@{number + 1} -0330")
            subprocess.run(["git", "-C", path, "update-ref", "--create-reflog", "-m", f"move {number}", name,
                            rng.choice(ids)], env=environment, check=True)
    git(path, "symbolic-ref", "refs/heads/led", "refs/heads/main")


def spelled(name):
    def part(text):
        try:
            text.decode()
            return text
        except UnicodeDecodeError:
            return b"".join(b"~%02x" % byte if byte > 127 else bytes([byte]) for byte in text)

    return b"/".join(part(text) for text in name.split(b"/"))


def put(folder, path, text):
    path = os.path.join(os.fsencode(folder), path)
    os.makedirs(os.path.dirname(path), exist_ok=True)
    with open(path, "wb") as file:
        file.write(text)


def objects(path):
    """Each object with its kind and bytes."""
    listed = git(path, "cat-file", "--batch-all-objects", "--batch-check=%(objectname) %(objecttype)")
    for line in listed.splitlines():
        name, kind = line.split()
        yield name, kind, git(path, "cat-file", kind.decode(), name.decode())


def references(path):
    """Each reference of the repository and HEAD with its text."""
    found = {}
    for line in git(path, "for-each-ref", "--format=%(refname) %(objectname) %(symref)").splitlines():
        name, target, symbolic = line.split(b" ")
        found[name] = b"ref: %s\n" % symbolic if symbolic else target + b"\n"
    for name in ("HEAD", "ORIG_HEAD"):
        with open(f"{path}/{name}", "rb") as file:
            found[name.encode()] = file.read()
    return found


def logs(path):
    """Each log's file with its bytes."""
    top = os.fsencode(path) + b"/logs"
    found = {}
    for here, _, names in os.walk(top):
        for name in names:
            whole = os.path.join(here, name)
            with open(whole, "rb") as file:
                found[os.path.relpath(whole, top)] = file.read()
    return found


def folder_of(path, folder, kind):
    """The repository as a folder of `gx`."""
    for name, sort, text in objects(path):
        put(folder, b"objects/%s/%s" % (name[:2], name[2:]), b"%s %d\0" % (sort, len(text)) + text)
    for name, text in references(path).items():
        put(folder, spelled(name), text)
    for name, text in logs(path).items():
        put(folder, b"logs/" + spelled(name), text)
    put(folder, b"format", b"gx 1 %s\n" % kind.encode())


def to_git(top, *words):
    """The status of to-git, and what it said."""
    done = subprocess.run([sys.executable, f"{top}/tools/to-git", *words], capture_output=True, check=False)
    return done.returncode, done.stderr.decode(errors="replace")


class Score:
    """Counts comparisons."""

    passed = 0
    failed = 0

    def same(self, name, wanted, found):
        if wanted == found:
            self.passed += 1
        else:
            self.failed += 1
            print(f"FAIL  {name}\n      wanted {wanted!r}\n      found  {found!r}"[:2000])


def random_folders(top, scratch, score):
    for seed in SEEDS:
        kind = "sha1" if seed % 3 else "sha256"
        path, folder, copy = (f"{scratch}/{what}-{seed}" for what in ("repository", "folder", "copy"))
        made(path, kind, random.Random(f"to-git {seed}"))
        folder_of(path, folder, kind)
        score.same(f"seed {seed}: to-git ends well and says nothing", (0, ""), to_git(top, folder, copy))
        score.same(f"seed {seed}: the objects", list(objects(path)), list(objects(copy)))
        score.same(f"seed {seed}: the references", references(path), references(copy))
        score.same(f"seed {seed}: the logs", logs(path), logs(copy))
        checked = subprocess.run(["git", "-C", copy, "fsck", "--strict"], capture_output=True, check=False)
        score.same(f"seed {seed}: git fsck --strict", 0, checked.returncode)
        score.same(f"seed {seed}: a second copy is refused", 1, to_git(top, folder, copy)[0])


def small(scratch, name, head=b"ref: refs/heads/main\n"):
    """A folder with a HEAD alone."""
    folder = f"{scratch}/{name}"
    put(folder, b"HEAD", head)
    put(folder, b"format", b"gx 1 sha1\n")
    return folder


def broken_folders(top, scratch, score):
    target = f"{scratch}/none"
    score.same("no folder: status 1", 1, to_git(top, f"{scratch}/absent", target)[0])
    for name, path, text, status in [
            ("no-place", b"a/b", b"ref: HEAD\n", 3), ("no-place-of-its-own", b"~objects/a", b"ref: HEAD\n", 3),
            ("broken", b"refs/heads/a", b"no id\n", 1), ("other-format", b"format", b"gx 2 sha1\n", 1)]:
        folder = small(scratch, name)
        put(folder, path, text)
        score.same(f"{name}: status {status}", status, to_git(top, folder, target)[0])
        score.same(f"{name}: nothing is written", False, os.path.exists(target))
    score.same("HEAD outside refs/", 3, to_git(top, small(scratch, "head", b"ref: ORIG_HEAD\n"), target)[0])
    folder = small(scratch, "locked")
    with open(f"{folder}/format", "rb") as file:
        fcntl.flock(file, fcntl.LOCK_EX)
        score.same("a folder that another program has", 1, to_git(top, folder, target)[0])
    folder = small(scratch, "cut-off")
    put(folder, b"~object", b"blob 3\0a")
    put(folder, b"refs/heads/a.lock", b"ref: refs/he")
    put(folder, b"logs/HEAD", b"0" * 40)
    score.same("what was cut off counts for nothing", (0, ""), to_git(top, folder, target))
    score.same("and is not copied", ({}, b""), ({name: text for name, text in logs(target).items() if text},
                                                git(target, "for-each-ref")))


def main():
    top, scratch = sys.argv[1:]
    score = Score()
    os.environ.update(GIT_CONFIG_GLOBAL="/dev/null", GIT_CONFIG_NOSYSTEM="1")
    random_folders(top, scratch, score)
    broken_folders(top, scratch, score)
    print(f"{score.passed} passed, {score.failed} failed")


main()
