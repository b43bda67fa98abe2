#!/usr/bin/env python3
"""What each part of the merge gate costs: the proof of each crate, of its tests, and each must-fail edit.

    python3 bench/gate.py [--save FILE] [COMMAND ..]    runs the command, `rt ci --anew` by default, and prints the table
    python3 bench/gate.py --load FILE [..]              prints the table of saved runs, one after another

A time is the processor time of the prover's processes in seconds, as /proc tells it: it is read five times a second, so
what a process used in its last fifth of a second may be missing. Parts run side by side; run the gate on a machine that
does nothing else, since neighbours on the same cores make each second dearer. An edit is tried over what one more check
of the crate proved: that check is the column "base".
"""
import argparse
import json
import os
import re
import resource
import subprocess
import sys
import time

TOP = os.path.dirname(os.path.dirname(os.path.abspath(__file__)))
TICKS_PER_SECOND = os.sysconf("SC_CLK_TCK")
PERIOD = 0.2


def processes_below(root):
    """The running descendants of a process: (number, start time, ticks used) of each."""
    children, found = {}, {}
    for name in os.listdir("/proc"):
        if not name.isdigit():
            continue
        try:
            with open(f"/proc/{name}/stat", encoding="utf-8", errors="replace") as stat:
                text = stat.read()
        except OSError:
            continue
        fields = text[text.rindex(")") + 2 :].split()
        children.setdefault(int(fields[1]), []).append(int(name))
        found[int(name)] = (int(fields[19]), int(fields[11]) + int(fields[12]))
    waiting, below = [root], []
    while waiting:
        for number in children.get(waiting.pop(), []):
            below.append((number, *found[number]))
            waiting.append(number)
    return below


def words_of(number):
    try:
        with open(f"/proc/{number}/cmdline", "rb") as line:
            return line.read().decode(errors="replace").split("\0")[:-1]
    except OSError:
        return []


def measured(command):
    """Runs the command, and returns what its processes cost."""
    seen, began = {}, time.monotonic()
    with subprocess.Popen(command, cwd=TOP) as running:
        while running.poll() is None:
            for number, start, ticks in processes_below(running.pid):
                one = seen.setdefault(f"{number}.{start}", {"words": [], "seconds": 0.0})
                # (a process that has just forked still has its parent's words)
                one["words"] = words_of(number) or one["words"]
                one["seconds"] = ticks / TICKS_PER_SECOND
            time.sleep(PERIOD)
    used = resource.getrusage(resource.RUSAGE_CHILDREN)
    parts = {}
    for one in seen.values():
        part = part_of(one["words"])
        if part:
            parts["\t".join(part)] = parts.get("\t".join(part), 0.0) + one["seconds"]
    return {
        "status": running.returncode,
        "wall": time.monotonic() - began,
        "processor": used.ru_utime + used.ru_stime,
        "parts": parts,
    }


def part_of(words):
    """The crate and the part of the gate that a process of the prover works for, if it is one."""
    if not words or os.path.basename(words[0]) != "rattle" or "--crate-name" not in words:
        return None
    crate = words[words.index("--crate-name") + 1]
    if words[1] == "check" and "--incremental" in words:
        over = os.path.basename(words[words.index("--incremental") + 1])
        return (crate, "base") if over == "seed" else (crate, "edit", edit_named(crate, over))
    if words[1] == "check":
        return (crate, "edit", "from nothing")
    return (crate, "tests" if "--test" in words else "proof")


def edit_named(crate, number):
    folder = os.path.join(TOP, "crates", crate, "must-fail")
    names = sorted(name for name in os.listdir(folder) if name.endswith(".edit"))
    return names[int(number)].removesuffix(".edit") if number.isdigit() and int(number) < len(names) else number


def crates_in_order():
    with open(os.path.join(TOP, "crates.txt"), encoding="utf-8") as lines:
        return [found.group(1) for found in map(re.compile(r"(\w+)[^:#]*:").match, lines) if found]


def table(run):
    """The rows of a run: a line for each crate, and a line for each edit."""
    costs, edits = {}, []
    for key, seconds in run["parts"].items():
        crate, part, *name = key.split("\t")
        costs.setdefault(crate, {}).setdefault(part, 0.0)
        costs[crate][part] += seconds
        edits += [(crate, name[0], seconds)] if name else []
    order = crates_in_order()
    names = [it for it in order if it in costs] + sorted(it for it in costs if it not in order)
    yield f"{'crate':<16}{'proof':>8}{'tests':>8}{'base':>8}{'edits':>8}{'sum':>8}"
    total = dict.fromkeys(("proof", "tests", "base", "edit"), 0.0)
    for name in names:
        line = [costs[name].get(part, 0.0) for part in total]
        total = {part: total[part] + it for part, it in zip(total, line)}
        yield f"{name:<16}" + "".join(f"{it:8.0f}" for it in (*line, sum(line)))
    yield f"{'all':<16}" + "".join(f"{it:8.0f}" for it in (*total.values(), sum(total.values())))
    yield ""
    for crate, name, seconds in sorted(edits, key=lambda it: -it[2]):
        yield f"{seconds:8.0f}  {crate}/{name}"
    yield ""
    yield f"status {run['status']}, {run['wall'] / 60:.1f} minutes, {run['processor'] / 60:.1f} minutes of processor time"


def main():
    reader = argparse.ArgumentParser(description=__doc__, formatter_class=argparse.RawDescriptionHelpFormatter)
    reader.add_argument("--save", metavar="FILE", help="keep what was measured")
    reader.add_argument("--load", metavar="FILE", nargs="+", help="print what was kept")
    reader.add_argument("command", nargs=argparse.REMAINDER)
    words = reader.parse_args()
    if words.load:
        for file in words.load:
            with open(file, encoding="utf-8") as kept:
                print("\n".join(table(json.load(kept))))
        return 0
    run = measured(words.command or ["rt", "ci", "--anew"])
    if words.save:
        with open(words.save, "w", encoding="utf-8") as kept:
            json.dump(run, kept)
    print("\n".join(table(run)))
    return run["status"]


if __name__ == "__main__":
    sys.exit(main())
