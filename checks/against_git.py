#!/usr/bin/env python3
"""Runs random scripts of commits, and compares each reply with what Git's plumbing makes of the same edits.

    python3 checks/against_git.py PROGRAM [--scripts N] [--seed SEED]

Each script is applied to a new store in memory, of either hash kind. A model of references decides which reply is due;
the ids in it come from `git update-index`, `git write-tree` and `git commit-tree`. Half of the scripts also ask for
what must be refused. The seed of a script that fails is printed, and is run alone with `--seed SEED --scripts 1`.
"""

import argparse
import hashlib
import os
import random
import subprocess
import sys
import tempfile

MODES = {"file": b"100644", "exec": b"100755", "link": b"120000", "module": b"160000"}
# Names that sort otherwise with a slash after them than without one.
NAMES = (b"a", b"a.b", b"a-b", b"ab", b"a0", b"b", b"B", b"dir", b"z", "\u00e4".encode())
BRANCHES = (b"HEAD", b"refs/heads/main", b"refs/heads/topic", b"refs/heads/dir/one", b"refs/heads/dir/two",
            b"refs/tags/first", b"refs/notes/commits")
HEAD_TARGET = b"refs/heads/main"


class Repository:
    """A repository of Git, of which only the plumbing is used."""

    def __init__(self, folder, kind):
        self.kind = kind
        self.folder = os.path.join(folder, kind + ".git")
        self.env = {key: value for key, value in os.environ.items() if not key.startswith("GIT_")}
        self.env.update(GIT_CONFIG_GLOBAL=os.devnull, GIT_CONFIG_NOSYSTEM="1", GIT_DIR=self.folder,
                        GIT_INDEX_FILE=os.path.join(folder, kind + ".index"))
        self.git("init", "--quiet", "--bare", f"--object-format={kind}", self.folder)
        self.empty_tree = self.git("hash-object", "-w", "-t", "tree", "--stdin")

    def git(self, *words, feed=b"", env=()):
        env = dict(self.env, **dict(env))
        done = subprocess.run(["git", *words], input=feed, stdout=subprocess.PIPE, stderr=subprocess.PIPE, env=env)
        if done.returncode != 0:
            raise RuntimeError(f"git {' '.join(words)}: {done.stderr.decode(errors='replace').strip()}")
        return done.stdout.strip()

    def blob(self, content):
        """The id of a blob. `git write-tree --missing-ok` takes it unstored."""
        return hashlib.new(self.kind, b"blob %d\0" % len(content) + content).hexdigest().encode()

    def null_id(self):
        return b"0" * (hashlib.new(self.kind).digest_size * 2)

    def tree(self, base, paths, edits):
        """The tree that edits make of a base, whose paths are given, and the paths then."""
        self.git("read-tree", base.decode())
        paths = set(paths)
        lines = []
        for edit in edits:
            path = edit["path"]
            below = {other for other in paths if other == path or other.startswith(path + b"/")}
            if edit["word"] == "drop":
                lines += [b"0 %s\t%s" % (self.null_id(), other) for other in sorted(below)]
                paths -= below
                continue
            above = {other for other in paths if path.startswith(other + b"/")}
            # --index-info puts an entry in the place of those that it can't stand beside.
            lines.append(b"%s %s\t%s" % (MODES[edit["word"]], edit["id"], path))
            paths -= below | above
            paths.add(path)
        self.git("update-index", "-z", "--index-info", feed=b"".join(line + b"\0" for line in lines))
        return self.git("write-tree", "--missing-ok"), frozenset(paths)

    def commit(self, tree, parents, author, committer, message):
        env = {}
        for role, who in (("AUTHOR", author), ("COMMITTER", committer)):
            env[f"GIT_{role}_NAME"] = who["name"]
            env[f"GIT_{role}_EMAIL"] = who["email"]
            env[f"GIT_{role}_DATE"] = f"@{who['seconds']} {zone(who['offset'])}"
        words = [word for parent in parents for word in ("-p", parent.decode())]
        return self.git("commit-tree", *words, tree.decode(), feed=message, env=env.items())


def zone(offset):
    sign = "-" if offset < 0 else "+"
    return f"{sign}{abs(offset) // 3600:02}{abs(offset) // 60 % 60:02}"


class Model:
    """What the store holds: the tree and the paths of each commit, and the commit that each reference names."""

    def __init__(self, repository, chance):
        self.repository = repository
        self.chance = chance
        self.commits = {}
        self.refs = {}
        self.blobs = set()

    @staticmethod
    def end(name):
        return HEAD_TARGET if name == b"HEAD" else name

    def who(self):
        name = self.chance.choice(("Ann Example", "Bo", "Zo\u00eb \u00d8", "X"))
        return {"name": name, "email": self.chance.choice(("a@example.org", "b@x", "")),
                "seconds": self.chance.randrange(1, 2_000_000_000),
                "offset": 60 * self.chance.randrange(-14 * 60, 14 * 60)}

    def path(self):
        return b"/".join(self.chance.choice(NAMES) for _ in range(self.chance.choice((1, 1, 2, 2, 3, 4))))

    def edit(self, paths):
        chance = self.chance
        word = chance.choice(("file",) * 6 + ("exec", "link", "module", "drop", "drop", "drop"))
        path = self.path()
        if paths and chance.random() < 0.6:
            path = chance.choice(sorted(paths))
            names = path.split(b"/")
            path = b"/".join(names[: chance.randrange(1, len(names) + 1)])
            if chance.random() < 0.2:
                path += b"/" + chance.choice(NAMES)
        edit = {"word": word, "path": path}
        if word == "module":
            edit["id"] = hashlib.new(self.repository.kind, b"module %d" % chance.randrange(9)).hexdigest().encode()
        elif word != "drop":
            edit["content"] = chance.randbytes(chance.choice((0, 1, 5, 40)))
            edit["id"] = self.repository.blob(edit["content"])
        return edit

    def request(self):
        """A request that may be made: the name, its parents and its edits."""
        chance = self.chance
        name = chance.choice(BRANCHES)
        tip = self.refs.get(self.end(name))
        parents = []
        if tip is not None:
            parents = [tip]
        elif self.commits and name != b"HEAD" and chance.random() < 0.7:
            parents = [chance.choice(sorted(self.commits))]
        if parents and chance.random() < 0.25:
            others = sorted(set(self.commits) - set(parents))
            parents += chance.sample(others, min(len(others), chance.choice((1, 1, 2))))
        paths = self.commits[parents[0]][1] if parents else frozenset()
        edits = [self.edit(paths) for _ in range(chance.choice((0, 1, 2, 3, 5, 8, 13)))]
        return {"name": name, "parents": parents, "edits": edits, "author": self.who(), "committer": self.who(),
                "message": chance.choice((b"c\n", b"", b"title\n\nbody\n", b"one\ntwo\n\nthree", "\u00fc\n".encode()))}

    def conflict(self, name):
        return any(other.startswith(name + b"/") or name.startswith(other + b"/") for other in self.refs)

    def reply(self, request):
        """The reply that is due to a request without a fault of its own, whose objects Git makes."""
        name, parents = request["name"], request["parents"]
        base, paths = self.commits[parents[0]] if parents else (self.repository.empty_tree, frozenset())
        tree, paths = self.repository.tree(base, paths, request["edits"])
        end = self.end(name)
        actual = self.refs.get(end)
        if not parents and actual is not None:
            return b"no must-not-exist %s %s" % (end, actual)
        if parents and actual is None and name == b"HEAD":
            return b"no must-exist %s" % end
        if parents and actual is not None and actual != parents[0]:
            return b"no out-of-date %s %s %s" % (end, parents[0], actual)
        if actual is None and self.conflict(end):
            return None
        commit = self.repository.commit(tree, parents, request["author"], request["committer"], request["message"])
        self.commits[commit] = (tree, paths)
        self.refs[end] = commit
        return b"ok " + commit

    def faulty(self):
        """A request that must be refused, and the reply to it, or None where the model has to give it."""
        chance = self.chance
        request = self.request()
        fault = chance.choice(("exists", "stale", "path", "filename", "unknown", "conflict", "no-kind"))
        content = b"x"
        blob = self.repository.blob(content)
        put = {"word": "file", "content": content, "id": blob}
        if fault == "path":
            path = chance.choice((b"", b"/", b"a//b", b"/a", b"a/"))
            request["edits"].append(dict(put, path=path))
            return request, b"no empty-component " + path
        if fault == "filename":
            name = chance.choice((b".git", b".GIT", b"git~1", b".git.", b".."))
            path = chance.choice((b"", b"new/")) + name
            request["edits"].append(dict(put, path=path))
            return request, b"no filename %s 100644 %s" % (blob, name)
        if fault == "unknown":
            unknown = self.repository.blob(b"no commit has this id")
            request["parents"] = [unknown] + request["parents"][1:]
            return request, b"no find " + unknown
        if fault == "no-kind" and self.blobs:
            known = chance.choice(sorted(self.blobs))
            request["parents"] = [known] + request["parents"][1:]
            return request, b"no kind %s blob" % known
        if fault == "conflict" and self.refs:
            request["name"] = chance.choice(sorted(self.refs)) + b"/below"
            if self.refs.get(request["name"]) is None:
                return request, b"no conflict %s %s" % (request["name"], request["name"][: -len(b"/below")])
        if fault == "stale" and len(self.commits) > 1:
            request["parents"] = [chance.choice(sorted(self.commits))]
            return request, None
        request["parents"] = []
        return request, None


def identity(who):
    return f"{who['seconds']} {who['offset']} {who['name']}\t{who['email']}".encode()


def request_text(request):
    parts = [b"commit %s\n" % request["name"], b"author %s\n" % identity(request["author"]),
             b"committer %s\n" % identity(request["committer"])]
    parts += [b"parent %s\n" % parent for parent in request["parents"]]
    parts.append(b"message %d\n%s\n" % (len(request["message"]), request["message"]))
    for edit in request["edits"]:
        if edit["word"] == "drop":
            parts.append(b"drop %s\n" % edit["path"])
        elif edit["word"] == "module":
            parts.append(b"module %s %s\n" % (edit["id"], edit["path"]))
        else:
            content = edit["content"]
            parts.append(b"put %s %d %s\n%s\n" % (edit["word"].encode(), len(content), edit["path"], content))
    return b"".join(parts) + b"end\n"


def compare(program, repository, seed):
    """Whether the replies to the script of this seed are those that are due."""
    chance = random.Random(seed)
    model = Model(repository, chance)
    script, wanted = [], []
    for _ in range(chance.randrange(2, 9)):
        request, reply = model.faulty() if chance.random() < 0.25 * (seed % 2) else (model.request(), None)
        reply = reply or model.reply(request)
        if reply is None:
            continue
        script.append(request_text(request))
        wanted.append(reply + b"\n")
        if reply.startswith(b"ok "):
            model.blobs.update(edit["id"] for edit in request["edits"] if "content" in edit)
    store = "--memory" if repository.kind == "sha1" else "--memory-sha256"
    done = subprocess.run([program, store, "apply"], input=b"".join(script), stdout=subprocess.PIPE)
    status = 0 if all(reply.startswith(b"ok ") for reply in wanted) else 1
    if done.stdout == b"".join(wanted) and done.returncode == status:
        return len(script)
    print(f"FAIL  seed {seed}, {repository.kind}: status {done.returncode}, wanted {status}")
    found = done.stdout.splitlines(keepends=True)
    for place, reply in enumerate(wanted):
        if place >= len(found) or found[place] != reply:
            print(f"      reply {place + 1} is {found[place] if place < len(found) else b''!r}, wanted {reply!r}")
            break
    return 0


def main():
    parser = argparse.ArgumentParser(description="Compares random scripts of commits with Git's plumbing.")
    parser.add_argument("program")
    parser.add_argument("--scripts", type=int, default=300)
    parser.add_argument("--seed", type=int, default=20261201)
    options = parser.parse_args()
    passed = failed = replies = 0
    with tempfile.TemporaryDirectory(prefix="gx-against-git-") as folder:
        repositories = [Repository(folder, kind) for kind in ("sha1", "sha256")]
        for seed in range(options.seed, options.seed + options.scripts):
            count = compare(options.program, repositories[seed // 2 % 2], seed)
            passed, failed, replies = passed + (count > 0), failed + (count == 0), replies + count
    print(f"seeds {options.seed} to {options.seed + options.scripts - 1}: {replies} replies compared")
    print(f"{passed} passed, {failed} failed")
    return 1 if failed else 0


if __name__ == "__main__":
    sys.exit(main())
