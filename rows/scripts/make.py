#!/usr/bin/env python3
"""Writes the scripts of this folder, and what must be replied to them, for both kinds of ids.

    python3 rows/scripts/make.py FOLDER

The ids come from Git's own commands: `git hash-object`, `git update-index`, `git write-tree` and `git commit-tree`. Which
reply is due stands in the table, written by hand: `ok`, or a refusal, in which `{name}` is the id of the commit of that
name. README.md says what each script shows.
"""
import os
import sys
import tempfile

TOP = os.path.dirname(os.path.dirname(os.path.dirname(os.path.abspath(__file__))))
sys.path.insert(0, os.path.join(TOP, "checks"))
from against_git import Repository, request_text, zone  # noqa: E402

MAIN = "refs/heads/main"
BY_A = {"name": "A", "email": "a@x", "seconds": 1, "offset": 0}
ON_HEAD = "commit HEAD\nauthor 1 0 A\ta@x\ncommitter 1 0 A\ta@x\n"


def put(path, content="x", word="file"):
    return {"word": word, "path": path, "content": content}


def drop(path):
    return {"word": "drop", "path": path}


def commit(name, reference, edits, reply="ok", parents="", message="c1\n", author=(), committer=()):
    """A request for a commit, which the rest of the table knows by this name."""
    return {"as": name, "name": reference, "edits": edits, "reply": reply, "parents": parents.split(), "message": message,
            "author": {**BY_A, **dict(author)}, "committer": {**BY_A, **dict(committer)}}


def unasked(request):
    """A commit that the table speaks of, and that the script does not make."""
    return {**request, "reply": None}


def bad(text, wrong):
    """What makes a script malformed, at its end, and what `gx_probe script` says of it."""
    return {"text": text, "replies": [], "wrong": wrong}


def refused(reply, edits=(), reference="HEAD", parents="", **roles):
    return commit(None, reference, list(edits), reply, parents, **roles)


def logged(name, *moves):
    """A request for a log, in which each line tells of a move from one commit to another, with a message, and by whom where
    that is not the committer of the second."""
    return {"log": name, "moves": moves}


def listed(prefix, **there):
    """A request for the references that begin with a prefix, or for all under `refs/`, where these are there, each at a
    commit, or symbolic where that begins with `@`. A `_` in a name stands for a slash, but in such as `ORIG_HEAD`. `HEAD`
    leads to the main branch if it is not said to be elsewhere, or to be absent."""
    names = {name if name.isupper() else "refs/" + name.replace("_", "/"): at for name, at in there.items()}
    return {"prefix": prefix, "there": {"HEAD": "@" + MAIN, **names}}


def relative(prefix):
    """A request for references whose prefix is no relative path."""
    return {"text": f"refs {prefix}\n", "replies": ["no relative-path"]}


def answered(text, name, reply):
    """A request for an edit of a reference, and `ok`, which has the name then, or what it is refused for."""
    return {"text": text, "replies": [f"ok {name}" if reply == "ok" else "no " + reply]}


def setting(name, target, expect, reply="ok", message="", by=()):
    """A request for a reference to be set, signed by A or by another, or by nobody where that is None."""
    who = {**BY_A, **dict(by or ())}
    line = "" if by is None else f"committer {who['seconds']} {who['offset']} {who['name']}\t{who['email']}\n"
    return answered(f"ref {name} {target} {expect}\n{line}message {len(message)}\n{message}\nend\n", name, reply)


def deleting(name, expect, reply="ok"):
    """A request for a reference to be deleted."""
    return answered(f"delete {name} {expect}\n", name, reply)


FIRST = commit("first", MAIN, [put("hello", "hello world")])
SECOND = commit("second", MAIN, [put("d/x")], "ok", "first", "c2\n")
BEGIN = commit("begin", "HEAD", [put("a.b", "hello world"), put("a/x", "x\n")])
EMPTY = commit("empty", "refs/heads/a", [], "ok", "", "c2\n")
MODULE = {"word": "module", "path": "m", "commit": "first"}
NEXT = commit("next", MAIN, [put("d/x")], "ok", "first", "c2\n")
B = {"seconds": 7, "offset": -12630, "name": "\u00d8 B", "email": ""}
A_NAME, AN_EMAIL, AN_OFFSET = {"name": "A<"}, {"email": "a>"}, {"offset": 360000}
NEW, NONE, ALIAS = "refs/heads/new", "refs/heads/none", "refs/heads/alias"

SCRIPTS = {
    "empty": [],
    "again": [FIRST, refused("must-not-exist refs/heads/main {first}", FIRST["edits"], MAIN), SECOND,
              {**SECOND, "reply": "out-of-date refs/heads/main {first} {second}"}],
    "head": [FIRST, commit("next", "HEAD", [put("d/x")], "ok", "first"),
             refused("out-of-date refs/heads/main {first} {next}", [put("d/x")], parents="first")],
    "changes": [BEGIN,
                refused("must-not-exist refs/heads/main {begin}"),
                commit("linked", "refs/heads/a", [drop("a.b"), put("l", "a", "link"), {**MODULE, "commit": "begin"}],
                       "ok", "begin", "c2\n"),
                commit("back", "refs/heads/b", [put("d/x", "x\n"), drop("d"), put("d/y", "y\n", "exec")],
                       "ok", "begin", "c2\n"),
                commit("replaced", "refs/heads/c", [put("a", "x\n"), put("a.b/c", "x\n")], "ok", "begin", "c2\n"),
                commit("bare", "refs/heads/bare", [drop("a"), drop("a.b")], "ok", "begin", "c3\n"),
                commit("same", "HEAD", [], "ok", "begin", "c2\n"),
                refused("out-of-date refs/heads/main {begin} {same}", parents="begin", message="c2\n")],
    "merge": [unasked(EMPTY), BEGIN, commit("merged", "HEAD", [], "ok", "begin empty", "m\n")],
    "steps": [commit("below", "refs/heads/below", [put("a"), put("a/b")]),
              commit("kept", "refs/heads/again", [put("d/x"), drop("d"), put("d/y")]),
              commit("gone", "refs/heads/again", [drop("d/y")], "ok", "kept"),
              commit("nothing", "refs/heads/nothing", [drop("d"), drop(""), drop("a//b")], "empty-component ")],
    "kinds": [unasked(FIRST), commit("kinds", "HEAD", [put("e", "x", "exec"), put("f"), put("l", "x", "link"), MODULE]),
              commit("order", "refs/heads/order", [put("a.b"), put("a/x")])],
    "paths": [refused("empty-component ", [put("")]), refused("empty-component a//b", [put("a//b")]),
              refused("empty-component /a", [put("/a")]), refused("empty-component a/", [put("a/")]),
              refused("empty-component /", [drop("/")]), refused("unwritable file-name", [put("a\0b")]), FIRST],
    "file-names": [refused("filename {tree} 40000 .GIT", [put(".GIT/x")]),
                   refused("filename {blob} 120000 .gitmodules", [put(".gitmodules", "x", "link")]),
                   refused("filename {blob} 120000 .GitModules", [put("a/.GitModules", "x", "link")]),
                   refused("filename {blob} 100755 .git", [put("a/.git", "x", "exec")]),
                   refused("filename {blob} 100644 git~1", [put("git~1")]),
                   refused("filename {blob} 100644 .git . ", [put(".git . ")]),
                   refused("filename {blob} 100644 .git:a", [put(".git:a")]),
                   refused("filename {tree} 40000 ..", [put("a/../x")]),
                   refused("filename {blob} 100644 .", [put("a/.")]),
                   unasked(FIRST), refused("filename {first} 160000 .git", [{**MODULE, "path": ".git"}]),
                   commit("aux", "HEAD", [put("aux.c")]),
                   commit("modules", "refs/heads/b", [put(".gitmodules"), put(".gita"), put("a..b"), put("...")])],
    "identities": [refused("unwritable author-offset", author={"offset": 360000}.items()),
                   refused("unwritable author-offset", author={"offset": -360000}.items()),
                   refused("unwritable committer-offset", committer={"offset": 360000}.items()),
                   refused("unwritable author-name", author={"name": "A<"}.items()),
                   refused("unwritable author-email", author={"email": "a>"}.items()),
                   refused("unwritable committer-name", committer={"name": ">"}.items()),
                   refused("unwritable committer-email", committer={"email": "<a"}.items()),
                   commit("far", "HEAD", [], author={"offset": 359999}.items()),
                   commit("west", "refs/heads/b", [], author={"offset": -359999}.items()),
                   commit("half", "refs/heads/c", [], committer={"offset": -12630, "name": "\u00d8 B", "email": ""}.items())],
    "messages": [commit("m%d" % at, "refs/heads/%d" % at, [], message=text) for at, text in
                 enumerate(["", "a", "title\n\nbody\n", "one\ntwo\n\nthree\n\n", "\n\na\n", " a \r\n", "\u00e4\n", "end\nend\n"])],
    "parents": [unasked(EMPTY), FIRST, refused("find {empty}", reference=MAIN, parents="empty"),
                refused("kind {hello} blob", reference=MAIN, parents="hello"),
                refused("kind {root} tree", reference=MAIN, parents="root")],
    "references": [commit("first", "refs/heads/other", FIRST["edits"]), refused("must-exist " + MAIN, parents="first"),
                   commit("new", "refs/heads/new", [put("d/x")], "ok", "first"), EMPTY,
                   refused("must-exist " + MAIN, parents="empty", message="c3\n"),
                   refused("conflict refs/heads/a/b refs/heads/a", [], "refs/heads/a/b", "empty", message="c3\n"),
                   refused("conflict refs/heads/a/b refs/heads/a", FIRST["edits"], "refs/heads/a/b"),
                   commit("beside", "refs/heads/ab", [], "ok", "empty", "c3\n"),
                   commit("deep", "refs/tags/v/1", [], message="c4\n"),
                   refused("conflict refs/tags/v refs/tags/v/1", reference="refs/tags/v")],
    "logs": [logged("HEAD"), FIRST, logged(MAIN, (None, "first", "commit (initial): c1")), logged("HEAD"),
             commit("next", "HEAD", [put("d/x")], "ok", "first", "two words\n\nand a body\n",
                    committer={"offset": -12630, "name": "\u00d8 B", "email": ""}.items()),
             logged("HEAD", ("first", "next", "commit: two words")),
             logged(MAIN, (None, "first", "commit (initial): c1"), ("first", "next", "commit: two words")),
             commit("merged", MAIN, [], "ok", "next first", "m\n"),
             logged(MAIN, (None, "first", "commit (initial): c1"), ("first", "next", "commit: two words"),
                    ("next", "merged", "commit (merge): m")),
             logged("HEAD", ("first", "next", "commit: two words")),
             commit("tagged", "refs/tags/v", [], message="c4\n"), logged("refs/tags/v"),
             refused("must-not-exist refs/tags/v {tagged}", reference="refs/tags/v"), logged("refs/heads/none")],
    "refs": [listed(None), listed(""), FIRST, commit("topic", "refs/heads/topic", [put("d/x")], "ok", "first"),
             commit("part", "refs/heads/topic-2/a", [], message="c4\n"), commit("tagged", "refs/tags/v", []),
             *[listed(prefix, heads_main="first", heads_topic="topic", **{"heads_topic-2_a": "part"}, tags_v="tagged")
               for prefix in (None, "", "refs/heads/", "refs/heads/topic", "refs/heads/topic-2/a", "refs/tags/", "refs/remotes/",
                              "H", "main", "refs", "refs//", "refs/..x", "...", "refs/heads/topic/")],
             *[relative(prefix) for prefix in ("/", "/refs/", ".", "..", "../refs/", "refs/../heads/", "refs/heads/.",
                                               "./refs/", "refs/heads/..")]],
    "set": [FIRST, NEXT, unasked(EMPTY),
            setting("refs/heads/a/b", "{first}", "absent"),
            setting("refs/heads/a/b", "{first}", "absent", "must-not-exist refs/heads/a/b {first}"),
            setting("refs/heads/a/b", "{next}", "absent", "must-not-exist refs/heads/a/b {first}"),
            setting("refs/heads/a", "{first}", "any", "conflict refs/heads/a refs/heads/a/b"),
            setting("refs/heads/a/b/c", "{first}", "absent", "conflict refs/heads/a/b/c refs/heads/a/b"),
            setting("refs/heads/a/b/c", "@" + MAIN, "?{first}", "conflict refs/heads/a/b/c refs/heads/a/b"),
            logged("refs/heads/a/b", (None, "first", "")),
            setting(NEW, "{first}", "exists", "must-exist " + NEW), setting(NEW, "{first}", "={first}", "must-exist " + NEW),
            setting(NEW, "@" + MAIN, "=@" + MAIN, "must-exist " + NEW), logged(NEW),
            setting(NEW, "{first}", "any", message="made"), setting(NEW, "{next}", "any", message="two\nlines", by=B.items()),
            setting(NEW, "{first}", "exists", message="back"),
            setting(NEW, "{next}", "={next}", f"out-of-date {NEW} {{next}} {{first}}"),
            setting(NEW, "{first}", "=@" + MAIN, f"out-of-date {NEW} @{MAIN} {{first}}"),
            setting(NEW, "{next}", "={first}", message="on"),
            setting(NEW, "{first}", "?{first}", f"out-of-date {NEW} {{first}} {{next}}"),
            setting(NEW, "{first}", "?@" + MAIN, f"out-of-date {NEW} @{MAIN} {{next}}"),
            setting(NEW, "{next}", "?{next}", message="same"),
            logged(NEW, (None, "first", "made"), ("first", "next", "two lines", B), ("next", "first", "back"),
                   ("first", "next", "on"), ("next", "next", "same")),
            setting("refs/heads/other", "{first}", "?{next}", message="other"),
            setting("refs/heads/unstored", "{empty}", "absent"), setting("refs/heads/blob", "{hello}", "any"),
            deleting("refs/heads/blob", "any"), logged("refs/heads/other", (None, "first", "other")),
            listed(None, heads_main="next", heads_a_b="first", heads_new="next", heads_other="first", heads_unstored="empty")],
    "signed": [FIRST, setting(NEW, "{first}", "any", "no-committer", by=None),
               setting(NEW, "{first}", "any", "unwritable committer-name", by=A_NAME.items()),
               setting(NEW, "{first}", "any", "unwritable committer-email", by=AN_EMAIL.items()),
               setting(NEW, "{first}", "any", "unwritable committer-offset", by=AN_OFFSET.items()),
               setting("HEAD", "{first}", "any", "no-committer", by=None),
               *[setting(f"refs/{name}/x", "{first}", "absent", "no-committer", by=None) for name in ("remotes", "notes")],
               setting("refs/tags/v", "{first}", "absent", by=None),
               setting("refs/tags/w", "{first}", "absent", by=A_NAME.items()),
               setting("refs/tags/signed", "{first}", "absent", message="m"), logged("refs/tags/v"), logged("refs/tags/signed"),
               setting("refs/heads/link", "@" + MAIN, "absent", by=None),
               setting("refs/heads/link", "@refs/heads/x", "exists", message="m", by=A_NAME.items()), logged("refs/heads/link"),
               setting("refs/notes/x", "{first}", "absent", message="noted"), logged("refs/notes/x", (None, "first", "noted")),
               setting("ORIG_HEAD", "{first}", "absent", by=None), logged("ORIG_HEAD"),
               listed("", ORIG_HEAD="first", heads_main="first", heads_link="@refs/heads/x", notes_x="first",
                      tags_v="first", tags_w="first", tags_signed="first")],
    "symbolic": [FIRST, NEXT, setting(ALIAS, "@" + MAIN, "absent", message="led"),
                 setting(ALIAS, "{first}", "absent", f"must-not-exist {ALIAS} @{MAIN}"),
                 setting(ALIAS, "@refs/heads/x", "={next}", f"out-of-date {ALIAS} {{next}} @{MAIN}"),
                 setting(ALIAS, "@refs/heads/x", "?@refs/heads/x", f"out-of-date {ALIAS} @refs/heads/x @{MAIN}"),
                 setting(ALIAS, "@refs/heads/x", "=@" + MAIN), listed("refs/heads/a", heads_alias="@refs/heads/x"),
                 setting(ALIAS, "@" + MAIN, "?@refs/heads/x"), setting("refs/heads/link", "@" + MAIN, "any"), logged(ALIAS),
                 commit("third", ALIAS, [put("y")], "ok", "next", "c3\n"),
                 logged(ALIAS, ("next", "third", "commit: c3")),
                 logged(MAIN, (None, "first", "commit (initial): c1"), ("first", "next", "commit: c2"),
                        ("next", "third", "commit: c3")),
                 listed("", heads_alias="@" + MAIN, heads_link="@" + MAIN, heads_main="third"),
                 setting(ALIAS, "{first}", "=@" + MAIN, message="apart"),
                 logged(ALIAS, ("next", "third", "commit: c3"), (None, "first", "apart")),
                 deleting("refs/heads/link", "={third}", f"out-of-date refs/heads/link {{third}} @{MAIN}"),
                 deleting("refs/heads/link", "=@" + MAIN),
                 logged(MAIN, (None, "first", "commit (initial): c1"), ("first", "next", "commit: c2"),
                        ("next", "third", "commit: c3")),
                 listed("", heads_alias="first", heads_main="third"),
                 setting("HEAD", "{third}", "=@" + MAIN, message="detached"), logged("HEAD", (None, "third", "detached")),
                 listed("H", HEAD="third"), deleting("HEAD", "={third}"), logged("HEAD"), listed("H", HEAD=None),
                 setting("HEAD", "@refs/heads/x", "absent"), listed("H", HEAD="@refs/heads/x")],
    "chains": [setting("refs/heads/c1", "@refs/heads/c2", "absent"), setting("refs/heads/c2", "@refs/heads/c1", "absent"),
               setting("refs/heads/self", "@refs/heads/self", "any"),
               refused("cycle refs/heads/c1", reference="refs/heads/c1"),
               refused("cycle refs/heads/self", reference="refs/heads/self"),
               *[setting(f"refs/heads/d{at}", f"@refs/heads/d{at + 1}", "?@refs/heads/none") for at in range(1, 7)],
               refused("depth refs/heads/d1", reference="refs/heads/d1"), commit("deep", "refs/heads/d2", []),
               logged("refs/heads/d7", (None, "deep", "commit (initial): c1")),
               logged("refs/heads/d2", (None, "deep", "commit (initial): c1")), logged("refs/heads/d1"),
               setting("refs/heads/d1", "@refs/heads/d7", "=@refs/heads/d2"), deleting("refs/heads/d3", "exists"),
               logged("refs/heads/d3"), logged("refs/heads/d7", (None, "deep", "commit (initial): c1")),
               setting("refs/heads/c2", "{deep}", "=@refs/heads/c1"), deleting("refs/heads/self", "=@refs/heads/self"),
               listed(None, heads_c1="@refs/heads/c2", heads_c2="deep", heads_d1="@refs/heads/d7", heads_d2="@refs/heads/d3",
                      heads_d4="@refs/heads/d5", heads_d5="@refs/heads/d6", heads_d6="@refs/heads/d7", heads_d7="deep")],
    "delete": [FIRST, NEXT, setting("refs/heads/a/b", "{first}", "absent"),
               *[deleting(NONE, expect) for expect in ("any", "absent", "?{first}", "?@" + MAIN)],
               *[deleting(NONE, expect, "must-exist " + NONE) for expect in ("exists", "={first}", "=@" + MAIN)],
               deleting(MAIN, "absent", f"must-not-exist {MAIN} {{next}}"),
               deleting(MAIN, "={first}", f"out-of-date {MAIN} {{first}} {{next}}"),
               deleting(MAIN, "?{first}", f"out-of-date {MAIN} {{first}} {{next}}"),
               deleting(MAIN, "=@" + MAIN, f"out-of-date {MAIN} @{MAIN} {{next}}"),
               deleting("refs/heads/main/x", "any"), deleting("refs/heads/a", "?{first}"),
               listed(None, heads_main="next", heads_a_b="first"),
               setting("refs/heads/a", "{first}", "any", "conflict refs/heads/a refs/heads/a/b"),
               deleting("refs/heads/a/b", "={first}"), logged("refs/heads/a/b"), listed(None, heads_main="next"),
               setting("refs/heads/a", "{first}", "any", message="room"), logged("refs/heads/a", (None, "first", "room")),
               deleting("refs/heads/a", "?{first}"), deleting("refs/heads/a", "exists", "must-exist refs/heads/a"),
               deleting(MAIN, "exists"), logged(MAIN), deleting(MAIN, "any"), listed("", HEAD="@" + MAIN),
               setting(MAIN, "{next}", "absent", message="again"), logged(MAIN, (None, "next", "again")),
               listed(None, heads_main="next")],
    "bad-name": [FIRST, bad("ref refs/heads/.a {first} any\n", "malformed 10")],
    "bad-target": [FIRST, bad("ref refs/heads/a @refs/heads/a. any\n", "malformed 10")],
    "bad-expect": [FIRST, deleting(MAIN, "={first}"), bad(f"delete {MAIN} {{first}}\n", "malformed 11")],
    "unsupported": [FIRST, {"text": """identity 1 0 A\ta@x
tag v1 {first} commit\ntagger 1 0 A\ta@x\nmessage 2\nv1\nend
paths {first}\nwalk newest {first}
bases {first} {first}\noctopus {first} {first}\ndescribe all-refs 10 {first}
note-set review {first} 2\nn1\nnote-drop review {first}\nnote-get {first}\nhead\nnamespace a/b\n""",
                            "replies": ["no unsupported"] * 12}, SECOND],
    "cut": [bad(ON_HEAD + "message 10\nc2\n", "truncated 6")],
    "cut-behind": [FIRST, bad(ON_HEAD + "message 10\nc2\n", "truncated 15")],
    "between": [FIRST, bad("\n" + ON_HEAD + "message 3\nc2\n\nend\n", "malformed 10")],
    "other-ids": [FIRST, SECOND, bad("paths {other}\n", "malformed 20")],
    "other-parent": [FIRST, bad(ON_HEAD + "parent {other}\n", "malformed 13")],
}


class Maker:
    """Makes scripts for one kind of ids."""

    def __init__(self, repository):
        self.repository = repository
        blob = repository.blob(b"x").decode()
        self.ids = {"blob": blob, "tree": self.tree_of_x(blob), "hello": repository.blob(b"hello world").decode(),
                    "root": repository.tree(repository.empty_tree, (), [self.edit(FIRST["edits"][0])])[0].decode(),
                    "other": "0" * {"sha1": 64, "sha256": 40}[repository.kind]}
        self.trees = {}
        self.committers = {}
        self.logs = 0

    def tree_of_x(self, blob):
        return self.repository.git("mktree", "--missing", feed=f"100644 blob {blob}\tx\n".encode()).decode()

    def edit(self, edit):
        made = {"word": edit["word"], "path": edit["path"].encode()}
        if "commit" in edit:
            made["id"] = self.ids[edit["commit"]].encode()
        elif edit["word"] != "drop":
            made["content"] = edit["content"].encode()
            made["id"] = self.repository.blob(made["content"])
        return made

    def made(self, request, parents, edits):
        """The id of the commit, as Git's commands make it."""
        base, paths = self.trees[request["parents"][0]] if parents else (self.repository.empty_tree, frozenset())
        tree, paths = self.repository.tree(base, paths, edits)
        text = request["message"].encode()
        made = self.repository.commit(tree, parents, request["author"], request["committer"], text)
        if abs(request["author"]["offset"]) >= 86400:  # `git commit-tree` takes no such zone
            written = zone(request["author"]["offset"]).encode()
            head, sep, rest = self.repository.git("cat-file", "commit", made.decode()).partition(b"\ncommitter ")
            made = self.repository.git("hash-object", "-w", "-t", "commit", "--stdin",
                                       feed=head[:-5] + written + sep + rest + b"\n")
        self.ids[request["as"]], self.trees[request["as"]] = made.decode(), (tree, paths)
        self.committers[request["as"]] = request["committer"]
        return made

    def line_of(self, old, new, message, who):
        """The line of a log, as `git update-ref` writes it. That writes none where the id stays, so such a line is made of
        the one for a new reference; and it leaves out the tab before a message without bytes."""
        self.logs += 1
        name, null = f"refs/heads/log-{self.logs}", self.repository.null_id().decode()
        begin = null if old in (None, new) else self.ids[old]
        if begin != null:
            self.repository.git("update-ref", name, begin)
        env = {"GIT_COMMITTER_NAME": who["name"], "GIT_COMMITTER_EMAIL": who["email"],
               "GIT_COMMITTER_DATE": f"@{who['seconds']} {zone(who['offset'])}"}
        words = ["-m", message] if message else []
        self.repository.git("update-ref", "--create-reflog", *words, name, self.ids[new], begin, env=env.items())
        with open(os.path.join(self.repository.folder, "logs", name), encoding="utf-8") as file:
            line = file.read().splitlines()[-1]
        line = self.ids[new] + line[len(null):] if old == new else line
        return line if message else line.rstrip("\t") + "\t"

    def log_of(self, moves):
        """The lines of a log."""
        return [self.line_of(old, new, message, by[0] if by else self.committers[new]) for old, new, message, *by in moves]

    def listing(self, prefix, there):
        """The references that begin with a prefix, as `git for-each-ref` lists those under `refs/` at a commit, and as
        `git symbolic-ref` and `git rev-parse` tell the others."""
        git = self.repository.git
        leading = {name: at[1:] for name, at in there.items() if at and at[0] == "@"}
        direct = {name: self.ids[at] for name, at in there.items() if at and at[0] != "@"}
        for name, commit_at in direct.items():
            git("update-ref", "--no-deref", name, commit_at)
        listed_names = [name for name in direct if name.startswith("refs/")]
        lines = git("for-each-ref", "--format=ref %(refname) %(objectname)", *listed_names).decode().splitlines() \
            if listed_names else []
        lines += [f"ref {name} " + git("rev-parse", name).decode() for name in direct if name not in listed_names]
        for name in set(direct) - {"HEAD"}:
            git("update-ref", "--no-deref", "-d", name)
        for name, target in leading.items():
            git("symbolic-ref", name, target)
            lines.append(f"ref {name} @" + git("symbolic-ref", "--no-recurse", name).decode())
        for name in set(leading) - {"HEAD"}:
            git("symbolic-ref", "--delete", name)
        git("symbolic-ref", "HEAD", MAIN)
        return sorted(line for line in lines if line[4:].startswith(prefix))

    def request(self, request):
        """The text of a request, and its replies."""
        if "there" in request:
            prefix = request["prefix"]
            lines = self.listing("refs/" if prefix is None else prefix, request["there"])
            return ("refs\n" if prefix is None else f"refs {prefix}\n").encode(), lines + [f"ok {len(lines)}"]
        if "log" in request:
            lines = ["log " + line for line in self.log_of(request["moves"])] if request["moves"] else []
            return f"log {request['log']}\n".encode(), lines + [f"ok {len(lines)}" if lines else "ok none"]
        if "text" in request:
            return request["text"].format(**self.ids).encode(), [reply.format(**self.ids) for reply in request["replies"]]
        parents = [self.ids[parent].encode() for parent in request["parents"]]
        edits = [self.edit(edit) for edit in request["edits"]]
        if request["reply"] in ("ok", None):
            made = self.made(request, parents, edits)
            if request["reply"] is None:
                return b"", []
        text = request_text({**request, "name": request["name"].encode(), "parents": parents, "edits": edits,
                             "message": request["message"].encode()})
        return text, ["ok " + made.decode() if request["reply"] == "ok" else "no " + request["reply"].format(**self.ids)]

    def files(self, requests):
        """A script, the replies that are due, the exit status where it is not 0, and what is wrong where something is."""
        parts = [self.request(request) for request in requests]
        replies = [reply for _, some in parts for reply in some]
        wrong = [request["wrong"] for request in requests if "wrong" in request]
        yield "script", b"".join(text for text, _ in parts)
        yield "expected", "".join(reply + "\n" for reply in replies).encode()
        if wrong or any(reply.startswith("no ") for reply in replies):
            yield "status", b"2\n" if wrong else b"1\n"
        if wrong:
            yield "wrong", wrong[0].encode() + b"\n"


def main(folder):
    with tempfile.TemporaryDirectory(prefix="gx-scripts-") as scratch:
        for kind in ("sha1", "sha256"):
            maker = Maker(Repository(scratch, kind))
            for name, requests in SCRIPTS.items():
                for ending, text in maker.files(requests):
                    with open(os.path.join(folder, f"{name}.{kind}.{ending}"), "wb") as file:
                        file.write(text)


if __name__ == "__main__":
    main(sys.argv[1])
