"""Folders in which something fails: a file that is not what it was, and each call of files in turn.

    folder_faults.py TOP SCRATCH

A file of a small folder is garbled, cut or emptied, or a folder is in its place: a run over it ends as it should, and
once the file is back, the folder answers as before. Then a run that commits is repeated, and each call of the system
that names the folder or a file in it fails in turn, by strace: the run ends with 7, or does without that call; each
reference and log is then old or new, the folder opens, and Git finds all that its references name. The last line says
how many comparisons passed and failed.
"""

import os
import re
import shutil
import subprocess
import sys

import from_git

WHO = "author 1 0 A\ta@x\ncommitter 1 0 A\ta@x\n"
QUESTIONS = b"refs\n", b"log HEAD\n", b"log refs/heads/main\n"
# The error that each call of the system may well give.
ERRORS = {"openat": "EACCES", "open": "EACCES", "statx": "EACCES", "newfstatat": "EACCES", "stat": "EACCES",
          "lstat": "EACCES", "fstat": "EIO", "read": "EIO", "pread64": "EIO", "getdents64": "EIO", "lseek": "EIO",
          "flock": "EAGAIN", "write": "ENOSPC", "pwrite64": "ENOSPC", "mkdir": "ENOSPC", "mkdirat": "ENOSPC",
          "rename": "ENOSPC", "renameat": "ENOSPC", "renameat2": "ENOSPC", "ftruncate": "EIO", "unlink": "EACCES",
          "unlinkat": "EACCES", "rmdir": "EACCES", "fcntl": "EIO"}


def commit(parent, number):
    over = f"parent {parent}\n" if parent else ""
    return (f"commit HEAD\n{WHO}{over}message 3\nc{number}\n\nput file 2 d/f{number}\n{number}\n\nend\n").encode()


class Repository:
    """A folder of one commit, of which copies are made, and the script of the next commit."""

    def __init__(self, top, scratch):
        self.top = top
        self.scratch = scratch
        self.program = f"{top}/crates/gx/out/gx"
        self.kept = f"{scratch}/kept"
        self.path = f"{scratch}/tried"
        self.first = self.run(commit(None, 1), path=self.kept)[1].decode().split()[1]
        self.script = commit(self.first, 2)
        self.old = self.answers()
        self.renew()
        self.wanted = self.run(self.script)
        self.new = self.answers(self.path)

    def run(self, script, words=(), path=None):
        """The status, the replies, and what was said on standard error."""
        done = subprocess.run([*words, self.program, path or self.path, "apply"], input=script, capture_output=True,
                              check=False)
        return done.returncode, done.stdout, done.stderr

    def renew(self):
        shutil.rmtree(self.path, ignore_errors=True)
        shutil.copytree(self.kept, self.path)

    def answers(self, path=None):
        return [self.run(question, path=path or self.kept) for question in QUESTIONS]

    def files(self):
        """The paths of all files, from the folder on."""
        found = []
        for folder, _, names in os.walk(self.kept):
            found += [os.path.relpath(os.path.join(folder, name), self.kept) for name in names]
        return sorted(found)

    def is_sound(self):
        out = f"{self.scratch}/sound.git"
        shutil.rmtree(out, ignore_errors=True)
        done = subprocess.run([sys.executable, f"{self.top}/tools/to-git", self.path, out], capture_output=True,
                              check=False)
        if done.returncode != 0:
            return f"to-git: {done.stderr.decode()}"
        done = subprocess.run(["git", "-C", out, "fsck", "--strict", "--full"], capture_output=True, check=False)
        return "" if done.returncode == 0 else done.stderr.decode()


# ---- files that are not what they were


def emptied(path):
    with open(path, "wb"):
        pass


def cut(path):
    os.truncate(path, os.path.getsize(path) // 2)


def garbled(path):
    with open(path, "r+b") as file:
        text = file.read()
        file.seek(0)
        file.write(bytes(byte ^ 1 for byte in text))


def replaced(path):
    os.remove(path)
    os.mkdir(path)


def status_of(file, damage):
    """How the next commit ends where a file is so. A folder in a file's place is as if the file were not there."""
    gone = damage is replaced
    if file == "format":
        return {9}
    if file == "HEAD":
        return {1} if gone else {7}
    if file == "refs/heads/main":
        return {1} if gone else {7}
    if file.startswith("logs/"):
        return {0}
    # The commit and its tree are read, the blob is not; what is written again is looked for by its name alone.
    return {0, 1} if gone else {0, 7}


def damaged(repository, score):
    for file in repository.files():
        for damage in (emptied, cut, garbled, replaced):
            name = f"{file} {damage.__name__}"
            repository.renew()
            path = f"{repository.path}/{file}"
            damage(path)
            status = repository.run(repository.script)[0]
            score.same(f"{name}: the status", True, status in status_of(file, damage))
            if status == 0:
                continue
            shutil.rmtree(path) if os.path.isdir(path) else os.remove(path)
            shutil.copyfile(f"{repository.kept}/{file}", path)
            score.same(f"{name}: nothing is lost", repository.old, repository.answers(repository.path))
            score.same(f"{name}: the next commit", repository.wanted, repository.run(repository.script))


# ---- calls that fail


def calls_of(repository):
    """Which calls of the system name the folder: each by its name and its place among those of that name."""
    log = f"{repository.scratch}/calls"
    repository.renew()
    repository.run(repository.script, ["strace", "-f", "-y", "-o", log])
    seen, found = {}, []
    with open(log, encoding="utf-8", errors="replace") as lines:
        for line in lines:
            call = re.match(r"\d+ +(\w+)\(", line)
            if call:
                seen[call[1]] = seen.get(call[1], 0) + 1
                if repository.path in line and call[1] in ERRORS:
                    found.append((call[1], seen[call[1]]))
    return found


def failing(repository, score):
    for call, place in calls_of(repository):
        name = f"{call} {place} fails"
        repository.renew()
        inject = f"inject={call}:error={ERRORS[call]}:when={place}"
        status, replies, _ = repository.run(repository.script, ["strace", "-f", "-o", os.devnull, "-e", inject])
        whole = repository.wanted[1]
        score.same(f"{name}: the status", True, (status, replies) in ((0, whole), (7, b"")))
        answers = repository.answers(repository.path)
        both = zip(answers, repository.old, repository.new)
        score.same(f"{name}: old or new", True, all(answer in (old, new) for answer, old, new in both))
        score.same(f"{name}: Git finds the repository sound", "", repository.is_sound())


def can_trace():
    if shutil.which("strace") is None:
        return False
    return subprocess.run(["strace", "-o", os.devnull, "true"], capture_output=True, check=False).returncode == 0


def main():
    top, scratch = sys.argv[1:]
    score = from_git.Score()
    os.environ.update(GIT_CONFIG_GLOBAL="/dev/null", GIT_CONFIG_NOSYSTEM="1")
    repository = Repository(top, f"{scratch}")
    damaged(repository, score)
    if can_trace():
        failing(repository, score)
    else:
        print("skip  strace can't be used, so no call of files fails")
    print(f"{score.passed} passed, {score.failed} failed")


main()
