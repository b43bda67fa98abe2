"""What the measures share: how a command is measured, the programs that are, the store of Git beside them, and tables."""

import os
import shutil
import subprocess
import sys
import tempfile

TOP = os.path.dirname(os.path.dirname(os.path.realpath(__file__)))


class Failed(Exception):
    """A command that did not do what was asked, with what it said."""


# ---- measures


class Measure:
    """What a run took: seconds of wall time and of the processor, and the peak of memory in bytes."""

    def __init__(self, wall, user, system, peak):
        self.wall = wall
        self.user = user
        self.system = system
        self.peak = peak


# Runs a command and writes what it took to the file descriptor that comes first. The peak of a command counts from the
# size of the process that starts it, so that is not this one, but a fresh and small one.
LAUNCHER = """
import os, sys, time
start = time.perf_counter()
child = os.posix_spawnp(sys.argv[2], sys.argv[2:], os.environ)
_, status, usage = os.wait4(child, 0)
wall = time.perf_counter() - start
took = (os.waitstatus_to_exitcode(status), wall, usage.ru_utime, usage.ru_stime, usage.ru_maxrss)
os.write(int(sys.argv[1]), " ".join(map(str, took)).encode())
"""


def run(command, source, target, env=None):
    """Runs a command from a file to a file."""
    with open(source, "rb") as stdin, open(target, "wb") as stdout, \
            tempfile.TemporaryFile() as stderr, tempfile.TemporaryFile() as took:
        descriptor = took.fileno()
        launcher = [sys.executable, "-I", "-S", "-c", LAUNCHER, str(descriptor), *command]
        subprocess.run(launcher, check=True, stdin=stdin, stdout=stdout, stderr=stderr, env=env, pass_fds=[descriptor])
        took.seek(0)
        status, wall, user, system, peak = took.read().split()
        stderr.seek(0)
        said = stderr.read(2000).decode(errors="replace").strip()
    if int(status) != 0:
        raise Failed(f"{os.path.basename(command[0])} ended with {int(status)}{': ' + said if said else ''}")
    scale = 1 if sys.platform == "darwin" else 1024
    return Measure(float(wall), float(user), float(system), int(peak) * scale)


def best(measures):
    """The fastest run, with the least peak of all."""
    fastest = min(measures, key=lambda m: m.wall)
    return Measure(fastest.wall, fastest.user, fastest.system, min(m.peak for m in measures))


def instructions(command, source):
    """How many instructions a command runs from a file on, as callgrind counts them, or None without valgrind."""
    valgrind = shutil.which("valgrind")
    if valgrind is None:
        return None
    words = [valgrind, "--tool=callgrind", "--callgrind-out-file=/dev/null", *command]
    with open(source, "rb") as stdin:
        done = subprocess.run(words, check=True, stdin=stdin, stdout=subprocess.DEVNULL, stderr=subprocess.PIPE)
    return int(done.stderr.split(b"Collected :")[1].split()[0])


# ---- the programs


def built_program():
    """The executable, which ./gx builds first where it has to."""
    try:
        subprocess.run([os.path.join(TOP, "gx"), "--version"], check=True, stdin=subprocess.DEVNULL, stdout=subprocess.DEVNULL)
    except (OSError, subprocess.CalledProcessError) as failure:
        sys.exit(f"the program can't be built or run: {failure}")
    return os.path.join(TOP, "crates", "gx", "out", "gx")


def built_probe():
    """The executable that asks the libraries, which rt builds first where it has to."""
    build = '. "$1/checks/build.sh"; top=$1; build gx_probe names'
    try:
        subprocess.run(["bash", "-c", build, "bench", TOP], check=True, stdin=subprocess.DEVNULL)
    except (OSError, subprocess.CalledProcessError) as failure:
        sys.exit(f"the program can't be built: {failure}")
    return os.path.join(TOP, "crates", "gx_probe", "out", "gx_probe")


def ids_of_replies(path):
    ids = []
    with open(path, "rb") as replies:
        for line in replies:
            if not line.startswith(b"ok "):
                raise Failed(f"a reply is {line.decode(errors='replace').strip()!r}")
            ids.append(line[3:].strip())
    return ids


# ---- Git


def git_env():
    env = {key: value for key, value in os.environ.items() if not key.startswith("GIT_")}
    env.update(GIT_CONFIG_GLOBAL=os.devnull, GIT_CONFIG_NOSYSTEM="1")
    return env


class GitStore:
    """A repository of Git without a worktree. Nothing in it is compressed, and nothing waits for the disk."""

    def __init__(self, git, folder):
        self.git = git
        self.path = os.path.join(folder, "store.git")
        self.env = git_env()

    def renew(self):
        shutil.rmtree(self.path, ignore_errors=True)
        subprocess.run([self.git, "init", "--quiet", "--bare", self.path], check=True, env=self.env)

    def measure(self, words, source, target):
        settings = ("core.compression=0", "pack.compression=0", "core.fsync=none")
        options = [word for setting in settings for word in ("-c", setting)]
        return run([self.git, "-C", self.path, *options, *words], source, target, self.env)

    def ask(self, *words):
        done = subprocess.run([self.git, "-C", self.path, *words], check=True, env=self.env, stdout=subprocess.PIPE)
        return done.stdout.split()


def measure_fast_import(git, stream, folder, runs):
    """The best of some imports of a stream, each into a new store, and the store."""
    store, printed = GitStore(git, folder), os.path.join(folder, "printed")
    measures = []
    for _ in range(runs):
        store.renew()
        measures.append(store.measure(["fast-import", "--quiet"], stream, printed))
    return best(measures), store


# ---- tables


def megabytes(count):
    return f"{count / (1 << 20):.1f}"


def seconds(measure):
    return f"{measure.wall:.3f}", f"{measure.user + measure.system:.3f}", megabytes(measure.peak)


def ratio(ours, theirs):
    return f"{ours / theirs:.2f}" if theirs > 0 else "-"


def columns(measured, size):
    return f"{measured.wall:.3f}", f"{measured.wall / size * 1e9:.0f}", megabytes(measured.peak)


def print_row(cells):
    print("| " + " | ".join(str(cell) for cell in cells) + " |", flush=True)


def print_head(cells):
    print_row(cells)
    print_row(["---"] * len(cells))
