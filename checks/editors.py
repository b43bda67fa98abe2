#!/usr/bin/env python3
"""Prints rows of random edits of trees, with the roots that are worked out here: each list of edits once for an editor that
writes now and then, and once for the plain writer of path maps, which never does.

    python3 checks/editors.py FIRST-SEED COUNT EDITORS PLAIN

The two files of rows have the same lists, for both kinds of ids.
"""
import hashlib
import random
import sys

KINDS = {"sha1": hashlib.sha1, "sha256": hashlib.sha256}
# The names sort apart from their directories, and often stand above one another.
NAMES = ("a", "a.b", "a-", "a0", "aa", "A", "b", "~", "é")
MODES = {"file": "100644", "exec": "100755", "link": "120000"}


def digest(kind, name, content):
    return KINDS[kind](b"%s %d\0" % (name, len(content)) + content).hexdigest()


def put(folder, path, leaf):
    """A leaf on the way becomes a directory, and what stood at the path is gone."""
    for name in path[:-1]:
        if not isinstance(folder.get(name), dict):
            folder[name] = {}
        folder = folder[name]
    folder[path[-1]] = leaf


def drop(folder, path):
    for name in path[:-1]:
        folder = folder.get(name)
        if not isinstance(folder, dict):
            return
    folder.pop(path[-1], None)


def leaves(folder, above=()):
    for name, entry in folder.items():
        if isinstance(entry, dict):
            yield from leaves(entry, (*above, name))
        else:
            yield "/".join((*above, name)), entry


def root(kind, folder):
    """The id of a directory's tree, and none below the root where nothing is in it."""
    rows = []
    for name, entry in folder.items():
        if not isinstance(entry, dict):
            rows.append((name.encode(), name.encode(), *entry))
        elif any(True for _ in leaves(entry)):
            rows.append((name.encode() + b"/", name.encode(), "40000", root(kind, entry)))
    tree = b"".join(b"%s %s\0" % (mode.encode(), name) + bytes.fromhex(at) for _, name, mode, at in sorted(rows))
    return digest(kind, b"tree", tree)


def word(text):
    return text if text.isascii() else '"' + "".join(c if c.isascii() else "".join(f"\\x{b:02x}" for b in c.encode()) for c in text) + '"'


def rows_of(kind, seed):
    """The same edits as a row of an editor and as a row of the plain writer."""
    dice, folder = random.Random(f"{seed} {kind}"), {}
    steps, answers, edits = [], [], []
    for _ in range(dice.randrange(1, 25)):
        path = [dice.choice(NAMES) for _ in range(dice.randrange(1, 5))]
        if dice.random() < 0.3:
            drop(folder, path)
            steps.append(f"remove {word('/'.join(path))}")
            edits.append(f"remove {word('/'.join(path))}")
        else:
            what, content = dice.choice(list(MODES)), str(dice.randrange(4))
            blob = digest(kind, b"blob", content.encode())
            put(folder, path, (MODES[what], blob))
            steps.append(f"upsert {MODES[what]} {word('/'.join(path))} {blob}")
            edits.append(f"{what} {word('/'.join(path))} {content}")
        answers.append("ok")
        if dice.random() < 0.2:
            steps.append("write_trees")
            answers.append(root(kind, folder))
    last = root(kind, folder)
    editor = f"editor {kind} {' ; '.join([*steps, 'write_trees'])} = {' ; '.join([*answers, last])}"
    shown = sorted((path.encode(), path, mode) for path, (mode, _) in leaves(folder))
    plain = f"edits {kind} {' , '.join(edits)} = {' '.join([last, *(f'{mode} {word(path)}' for _, path, mode in shown)])}"
    return editor, plain


def main():
    first, count = int(sys.argv[1]), int(sys.argv[2])
    with open(sys.argv[3], "w", encoding="utf-8") as editors, open(sys.argv[4], "w", encoding="utf-8") as plain:
        for seed in range(first, first + count):
            for kind in KINDS:
                rows = rows_of(kind, seed)
                print(rows[0], file=editors)
                print(rows[1], file=plain)


if __name__ == "__main__":
    main()
