"""Random repositories, taken into folders by several runs of `gx` and out again by tools/to-git.

    folder.py TOP SCRATCH

The scripts are those of tools/from-git. A script in pieces over one folder is answered as it is whole over memory; a run
that is killed leaves a folder that opens, with all that its references name; a folder that another program has, or that is
of the other kind, is refused. The last line says how many comparisons passed and failed.
"""

import fcntl
import os
import random
import re
import signal
import subprocess
import sys
import time

import from_git

SEEDS = range(1, 7)
KILLS = 20
# Commits of one file, each on the last: enough for a run of a second or so.
LONG = 4000


class Folder:
    """A folder of `gx`, with the words for its kind."""

    def __init__(self, top, path, kind="sha1"):
        self.top = top
        self.path = path
        self.word = path if kind == "sha1" else f"sha256:{path}"

    def start(self, script):
        return subprocess.Popen([f"{self.top}/gx", self.word, "apply"], stdin=open(script, "rb"),
                                stdout=subprocess.PIPE, stderr=subprocess.PIPE)

    def run(self, script):
        """The status, the replies, and what was said on standard error."""
        done = subprocess.run([f"{self.top}/gx", self.word, "apply"], input=script, capture_output=True, check=False)
        return done.returncode, done.stdout, done.stderr.decode()

    def repository(self, path):
        """What to-git made of it, and whether Git finds it sound: nothing where all is well."""
        done = subprocess.run([sys.executable, f"{self.top}/tools/to-git", self.path, path], capture_output=True,
                              check=False)
        if done.returncode != 0:
            return f"to-git: {done.stderr.decode()}"
        done = subprocess.run(["git", "-C", path, "fsck", "--strict", "--full"], capture_output=True, check=False)
        return "" if done.returncode == 0 else done.stderr.decode()


def pieces(script, rng):
    """A script of commits, cut between requests into a few scripts."""
    requests = re.split(rb"(?<=\nend\n)(?=commit refs/imported/)", script)
    cuts = sorted(rng.sample(range(len(requests) + 1), min(3, len(requests))))
    return [b"".join(requests[start:end]) for start, end in zip([0, *cuts], [*cuts, len(requests)])]


def through_folders(top, scratch, score):
    for seed in SEEDS:
        kind = "sha1" if seed % 3 else "sha256"
        rng = random.Random(f"folder {seed}")
        case = from_git.Case(top, f"{scratch}/from-{seed}", kind)
        case.imported(from_git.stream_of(rng, 40 if kind == "sha1" else 64)[0])
        script = case.tool("--commits")[1]
        folder = Folder(top, f"{scratch}/folder-{seed}", kind)
        runs = [folder.run(piece) for piece in pieces(script, rng)]
        replies = b"".join(run[1] for run in runs).decode().split("\n")[:-1]
        score.same(f"seed {seed}: the replies of several runs are those of one over memory", case.replies(script)[1],
                   replies)
        out = f"{scratch}/to-{seed}"
        score.same(f"seed {seed}: Git finds the repository sound", "", folder.repository(out))
        listed = subprocess.run(["git", "-C", out, "rev-list", "--all"], capture_output=True, check=False)
        score.same(f"seed {seed}: all commits are Git's", sorted(case.commits()), sorted(listed.stdout.decode().split()))


def long_script():
    """Commits without parents on references of their own, and what each is to be answered is not looked at."""
    lines = []
    for number in range(LONG):
        who = f"{number} 0 A\ta@x"
        lines.append(f"commit refs/heads/b{number}\nauthor {who}\ncommitter {who}\nmessage 2\nc\n\n"
                     f"put file 2 d/{number % 7}\n{number % 10}\n\nend\n")
    return "".join(lines).encode()


def killed(top, scratch, score):
    """Each run is killed at a moment of its own, over one folder; the commits of earlier runs are refused in the next."""
    rng = random.Random("folder kills")
    script = f"{scratch}/long.script"
    with open(script, "wb") as file:
        file.write(long_script())
    folder = Folder(top, f"{scratch}/killed")
    folder.run(b"")
    whole = 0
    for _ in range(KILLS):
        child = folder.start(script)
        time.sleep(rng.uniform(0.001, 0.25))
        child.send_signal(signal.SIGKILL)
        child.communicate()
        if folder.run(b"") == (0, b"", ""):
            whole += 1
    score.same("the folder opens after each kill", KILLS, whole)
    score.same("all that its references name is there", "", folder.repository(f"{scratch}/killed.git"))


def refused(top, scratch, score):
    folder = Folder(top, f"{scratch}/held")
    folder.run(b"")
    with open(f"{folder.path}/format", "rb") as file:
        fcntl.flock(file, fcntl.LOCK_EX)
        score.same("a folder that another program has", (7, b"", "store fault\n"), folder.run(b""))
    score.same("the folder when it is free again", (0, b"", ""), folder.run(b""))
    other = Folder(top, folder.path, "sha256")
    score.same("a folder of the other kind", (9, b"", "not a repository\n"), other.run(b""))
    with open(f"{folder.path}/HEAD", "wb") as file:
        file.write(b"ref: nonsense\0\n")
    status, replies, _ = folder.run(b"log HEAD\n" + long_script().replace(b"refs/heads/b0\n", b"HEAD\n", 1))
    score.same("a HEAD that can't be read ends the run at the request that wants it", (7, b"ok none\n"),
               (status, replies))


def main():
    top, scratch = sys.argv[1:]
    score = from_git.Score()
    os.environ.update(GIT_CONFIG_GLOBAL="/dev/null", GIT_CONFIG_NOSYSTEM="1")
    through_folders(top, scratch, score)
    killed(top, scratch, score)
    refused(top, scratch, score)
    print(f"{score.passed} passed, {score.failed} failed")


main()
