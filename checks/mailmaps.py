#!/usr/bin/env python3
"""Rows of random mailmaps and dates, with what Git says of them.

mailmaps.py FOLDER [SEED] writes rows into the folder, in the form that src/rows.rt of probe_rows describes: random mailmaps
and identities with the answers of `git check-mailmap` (mailmaps.rows), and dates with the moments that `git commit-tree`
writes for them (dates.rows). Only lines and dates that mean the same to both are made; docs/DIFFERENCES.md says which
others there are.
"""

import calendar
import os
import random
import subprocess
import sys

MAPS = 40
LINES = 25
IDENTITIES = 60
DATES = 300

NAMES = ["Jo", "jo", "Jo B", "JO B", "Max", "max", "Æsop", "æsop", "A>B", "[", "{"]
EMAILS = ["jo@x", "JO@X", "Jo@x", "jo@y", "max@z.org", "MAX@Z.org", "a b@c", "æ@x", "Æ@x", "{@x", "[@x"]
WEEKDAYS = ["Mon", "Tue", "Wed", "Thu", "Fri", "Sat", "Sun"]
MONTHS = ["Jan", "Feb", "Mar", "Apr", "May", "Jun", "Jul", "Aug", "Sep", "Oct", "Nov", "Dec"]


def git(*words, given=b"", env=None):
    return subprocess.run(["git", *words], input=given, stdout=subprocess.PIPE, check=True, env=env).stdout


def name(rand):
    return rand.choice(NAMES)


def gap(rand):
    return rand.choice([" ", "", "  ", "\t"])


def part(rand, with_name):
    return (name(rand) + gap(rand) if with_name else "") + "<" + rand.choice(EMAILS) + ">"


def line(rand):
    form = rand.randrange(7)
    if form == 0:
        text = part(rand, True)
    elif form == 1:
        text = part(rand, False) + gap(rand) + part(rand, False)
    elif form == 2:
        text = part(rand, True) + gap(rand) + part(rand, False)
    elif form in (3, 4):
        text = part(rand, True) + gap(rand) + part(rand, True)
    elif form == 5:
        return rand.choice(["", "   ", "# Jo <jo@x>", "#", "no brackets", "<jo@x", "jo@x>"])
    else:
        text = part(rand, True) + " # a comment"
    return rand.choice(["", "", "  "]) + text + rand.choice(["", "", " ", "\r"])


def field(text):
    """A text as a field of a row. Bare words are written as such, which is how answers are written too."""
    bytes_ = text.encode()
    if bytes_ and all(0x21 <= byte <= 0x7E and byte not in b'"*+=' for byte in bytes_):
        return text
    return '"' + "".join(escaped(byte) for byte in bytes_) + '"'


def escaped(byte):
    named = {0: "\\0", 9: "\\t", 10: "\\n", 13: "\\r", 0x22: '\\"', 0x5C: "\\\\"}
    return named.get(byte) or (chr(byte) if 0x20 <= byte <= 0x7E else "\\x%02x" % byte)


def write_mailmaps(folder, rand):
    mailmap = os.path.join(folder, "mailmap")
    with open(os.path.join(folder, "mailmaps.rows"), "w") as rows:
        for _ in range(MAPS):
            text = "\n".join(line(rand) for _ in range(rand.randrange(LINES))) + rand.choice(["", "\n"])
            with open(mailmap, "w", newline="") as file:
                file.write(text)
            asked = [(name(rand), rand.choice(EMAILS)) for _ in range(IDENTITIES)]
            given = "".join("%s <%s>\n" % who for who in asked).encode()
            told = git("-C", folder, "-c", "mailmap.file=" + mailmap, "check-mailmap", "--stdin", given=given)
            for who, answer in zip(asked, told.decode().splitlines()):
                found = answer[:-1].split(" <")
                words = [field(part) for part in ("mailmap", *who, text, "=", *found)]
                rows.write(" ".join(words[:4]) + " = " + " ".join(words[5:]) + "\n")


def day(rand):
    """A day of the years that Git knows, often the last of its month, and often a leap day."""
    year, month = rand.randrange(1971, 2100), rand.randrange(1, 13)
    if rand.randrange(5) == 0:
        year, month = rand.randrange(1972, 2100, 4), 2
    last = calendar.monthrange(year, month)[1]
    return year, month, rand.choice([last, rand.randrange(1, last + 1)])


def offset(rand):
    """An offset below a day. The bounds are tried often; Git takes one of a minute less than UTC for UTC."""
    text = rand.choice("+-") + rand.choice(["0000", "1200", "1400", "2359"] + ["%02d%02d" % (rand.randrange(24), rand.randrange(60))] * 4)
    return "+0000" if text == "-0001" else text


def date(rand):
    """A date that means the same to Git, which gives a day without a time the present one, and takes days that no calendar
    has."""
    year, month, number = day(rand)
    clock = "%02d:%02d:%02d" % (rand.randrange(24), rand.randrange(60), rand.randrange(60))
    clock = rand.choice(["00:00:00", "23:59:59", clock, clock]) + " " + offset(rand)
    form = rand.randrange(5)
    if form == 0:
        return "%d %s" % (rand.randrange(10**8, 4 * 10**9), offset(rand))
    if form in (1, 2):
        return "%04d-%02d-%02d%s%s" % (year, month, number, " T"[form - 1], clock)
    digits = "%02d" if form == 3 else "%d"
    return "%s, %s %s %d %s" % (rand.choice(WEEKDAYS), digits % number, MONTHS[month - 1], year, clock)


def seconds_of(offset):
    """An offset in seconds, as rows have it."""
    size = int(offset[1:3]) * 3600 + int(offset[3:5]) * 60
    return -size if offset[0] == "-" else size


def write_dates(folder, rand):
    tree = git("-C", folder, "hash-object", "-w", "-t", "tree", "--stdin").decode().strip()
    env = dict(os.environ, GIT_AUTHOR_NAME="A", GIT_AUTHOR_EMAIL="a@x", GIT_COMMITTER_NAME="A", GIT_COMMITTER_EMAIL="a@x")
    with open(os.path.join(folder, "dates.rows"), "w") as rows:
        for _ in range(DATES):
            text = date(rand)
            env["GIT_COMMITTER_DATE"] = text
            commit = git("-C", folder, "commit-tree", tree, "-m", "m", env=env).decode().strip()
            committer = git("-C", folder, "cat-file", "commit", commit).decode().split("\ncommitter ")[1].split("\n")[0]
            seconds, offset = committer.rsplit(" ", 2)[1:]
            rows.write('date "%s" = %s %d\n' % (text, seconds, seconds_of(offset)))


def main():
    folder = sys.argv[1]
    rand = random.Random(int(sys.argv[2]) if len(sys.argv) > 2 else 23)
    git("init", "-q", folder)
    write_mailmaps(folder, rand)
    write_dates(folder, rand)


main()
