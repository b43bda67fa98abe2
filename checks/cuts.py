#!/usr/bin/env python3
"""Prints rows of scripts that go wrong at one place: `script KIND TEXT [LIMIT] = ANSWER`, as src/scripts.rt of script_probe reads.

A script of one request that is cut is truncated, in the line of its end: a part of a line is not judged. Within a limit
below its size it is too long. A byte before it, or between two, makes a line wrong that no form has.
"""
IDS = {"sha1": "d432cc22925b1fddcaa9fdf18c688bd7411e65ed",
       "sha256": "b6d0354994e281bf5ae2f7c79ed52bb6bb183674ab54dafc27f8d466644cc1b0"}
ONE = ("commit refs/heads/main\nauthor 1700000000 3600 A U Thor\ta@example.com\ncommitter -1 -3600 C\t\nmessage 3\nc1\n\n"
       "put file 11 hello\nhello world\nend\n")
ONE_READ = ('commit refs/heads/main author 1700000000 3600 "A U Thor" a@example.com committer -1 -3600 C "" parents 0 '
            'message "c1\\n" edits 1 file hello "hello world"')
TWO = "commit HEAD\nauthor 0 0 \t\ncommitter 0 0 \t\nmessage 0\n\nend\n"
TWO_READ = 'commit HEAD author 0 0 "" "" committer 0 0 "" "" parents 0 message "" edits 0'
FORMS = [
    ONE, TWO,
    "commit HEAD\nauthor 0 0 \t\ncommitter 0 0 \t\nparent {id}\nparent {id}\nmessage 4\n\n\n\n\n\nput exec 2 e\n\n\n\n"
    "put link 1 l\nx\nmodule {id} m\ndrop d\nend\n",
    "identity -1 3600 A U Thor\ta@x\n",
    "tag v1 {id} commit\ntagger -1 3600 A\ta@x\nmessage 3\nv\n\n\nend\n", "tag v1 {id} blob\nmessage 0\n\nend\n",
    "ref HEAD @A ?{id}\ncommitter 0 0 \t\nmessage 1\n\n\nend\n", "ref HEAD {id} any\nmessage 0\n\nend\n",
    "delete HEAD =@A\n", "delete HEAD ?{id}\n", "refs\n", "refs refs/\n", "log HEAD\n", "paths {id}\n",
    "walk newest:-5 {id} ^{id}\n", "bases {id} {id}\n", "octopus {id}\n", "describe all-tags 10 {id}\n",
    "note-set review {id} 3\na\n\n\n", "note-drop a/b {id}\n", "note-get {id} a b\n", "head\n", "namespace a/b\n", "namespace\n",
]
# A wrong beginning, its size up to the byte that shows it, and its line.
WRONG = [("commit HEAD\nauthor 0 0 x\n", 25, 2), ("commit HEAD\nauthor 0 0 \t\ncommitter 0 0 \t\nmessage 1\nab\n", 53, 5),
         ("\n", 1, 1), ("note-set n {id} 2\na\nb\n".replace("{id}", IDS["sha1"]), 57, 3)]
ESCAPES = {"\n": "\\n", "\t": "\\t", "\r": "\\r", "\0": "\\0", '"': '\\"', "\\": "\\\\"}


def quoted(text):
    return '"' + "".join(ESCAPES.get(it, it if " " <= it <= "~" else f"\\x{ord(it):02x}") for it in text) + '"'


def row(kind, text, answer, limit=""):
    print(f"script {kind} {quoted(text)}{limit and f' {limit}'} = {answer}")


def line_of(text):
    return text.count("\n") + 1


def main():
    for kind, digits in IDS.items():
        for form in FORMS:
            text = form.replace("{id}", digits)
            for size in range(1, len(text)):
                row(kind, text[:size], f"truncated {line_of(text[:size])}")
                row(kind, text, "too long", f"{size}")
            row(kind, text, "too long", "0")
            for byte in range(256) if kind == "sha1" else ():
                row(kind, chr(byte) + text, "malformed 1")
    for byte in map(chr, range(256)):
        row("sha1", ONE + byte + TWO, f"{ONE_READ}; malformed 10")
        row("sha1", ONE + byte, f"{ONE_READ}; {'malformed' if byte == chr(10) else 'truncated'} 10")
    for limit in range(199):
        requests = (limit >= len(ONE)) + (limit >= len(ONE + TWO))
        row("sha1", ONE + TWO, (f"{ONE_READ}; " * (requests > 0) + (f"{TWO_READ}; end" if requests > 1 else "too long")),
            f"{limit}")
    for wrong, place, line in WRONG:
        for limit in (*range(place), place, place + 1, 1000):
            row("sha1", wrong + ONE, "too long" if limit < place else f"malformed {line}", f"{limit}")


if __name__ == "__main__":
    main()
