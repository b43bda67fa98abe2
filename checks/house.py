#!/usr/bin/env python3
"""Whether the repository keeps the rules of its own that a text check can tell.

    python3 checks/house.py [--shrink]

Each rule has a name, which a complaint begins with:

    proofs-import   a crate takes nothing from the proofs of another crate of this repository: from `proofs`, or from below
                    `specs/Laws`, where the proofs of the laws in `specs/Laws.antt` are
    private-clause  a clause of a public function names no private type and no private field
    long-line       a line of code, or of `specs/`, has at most 120 columns, if it is no import
    no-sentence     a definition in `specs/` has a sentence above it
    citation        no comment cites a rule by a letter and a number
    missing-file    a file that a document names is there
    missing-name    what docs/ARCHITECTURE.md and docs/PROMISES.md name of the code is in the code
    long-cell       a cell of a table in a document has at most 300 characters
    long-readme     README.md has at most 1,000 words

checks/house-exceptions.txt says how many breaches are still allowed, and where. It can only shrink: a line that allows
more than there are is a fault too. `--shrink` lowers its numbers to what there is, and raises none.
"""

import argparse
import fnmatch
import glob
import os
import re
import sys

TOP = os.path.dirname(os.path.dirname(os.path.abspath(__file__)))
EXCEPTIONS = os.path.join("checks", "house-exceptions.txt")
COLUMNS = 120
CELL = 300
README_WORDS = 1000


def read(path):
    with open(os.path.join(TOP, path), encoding="utf-8") as file:
        return file.read()


def files_below(folder, *endings):
    """The files below a folder, in order. What was built is passed over."""
    found = []
    for here, folders, names in os.walk(os.path.join(TOP, folder)):
        folders[:] = sorted(name for name in folders if name not in ("out", ".git"))
        found += [os.path.relpath(os.path.join(here, name), TOP) for name in sorted(names) if name.endswith(endings)]
    return found


def crates():
    lines = (line.split(":")[0].strip() for line in read("crates.txt").splitlines())
    return [name for name in lines if name and not name.startswith("#")]


def line_of(text, place):
    return text.count("\n", 0, place) + 1


# Imports of proofs.

PROOFS = re.compile(r"\b(\w+)(?:\.|::)proofs\b")
LAW_PROOFS = re.compile(r"\b(\w+)\.specs\.Laws\.(\w+)")


def proofs_imports(names):
    for crate in names:
        for path in files_below(f"crates/{crate}", ".rt", ".antt"):
            for number, line in enumerate(read(path).splitlines(), 1):
                others = set(PROOFS.findall(line))
                for other, name in LAW_PROOFS.findall(line):
                    if os.path.exists(os.path.join(TOP, "crates", other, "specs", "Laws", f"{name}.antt")):
                        others.add(other)
                for other in others & set(names) - {crate}:
                    yield path, number, f"takes from the proofs of {other}"


# Clauses of public functions.

IMPORT = re.compile(r"(?:ghost )?use Rattle\.([\w.«»]+?)(?:\.\{([^}]*)\}| as (\w+))?;?\s*$", re.M)
EXPORT = re.compile(r"^pub use ([\w:]+?)(?:::\{([^}]*)\})?;", re.M)
PUBLIC_ITEM = re.compile(r"^pub (?:const fn|fn|struct|enum|trait|const|static|type) (\w+)", re.M)
BLOCK = re.compile(r"^(?:impl\b|(?:pub )?trait\b)[^{;]*\{", re.M)
FUNCTION = re.compile(r"^([ \t]*)(pub(?:\([\w ]+\))? )?(?:const )?fn (\w+)", re.M)
STRUCT = re.compile(r"^pub struct (\w+)[^{;(]*\{\n(.*?)^\}", re.M | re.S)
FIELD = re.compile(r"^    (pub(?:\([\w ]+\))? )?(?:ghost )?(\w+):", re.M)


class Crate:
    def __init__(self, name):
        self.name = name
        self.sources = {path: read(path) for path in files_below(f"crates/{name}/src", ".rt")}
        root = self.sources.get(f"crates/{name}/src/lib.rt")
        self.exported = set() if root is None else self.exports(root)
        text = "\n".join(self.sources.values())
        self.modelled = set(re.findall(r"^impl(?:<[^{]*?>)? Model for (\w+)", text, re.M))
        self.private_fields = {
            name: {field for public, field in FIELD.findall(body) if public != "pub "} for name, body in STRUCT.findall(text)
        }

    def exports(self, root, folder=""):
        names = set()
        for path, several in EXPORT.findall(root):
            for item in several.split(",") if several else [path.split("::")[-1]]:
                names.add(item.split(" as ")[-1].strip())
        for module in re.findall(r"^pub mod (\w+);", root, re.M):
            text = self.sources.get(f"crates/{self.name}/src/{folder}{module}.rt", "")
            names.update(PUBLIC_ITEM.findall(text), self.exports(text, f"{folder}{module}/"))
        return names


def imported(text):
    """The names that a file imports from definitions, with the modules that they are in."""
    names = {}
    for module, several, alias in IMPORT.findall(text):
        if alias:
            names[alias] = module
            continue
        for item in several.split(","):
            words = item.split(" as ")
            if words[0].strip():
                names[words[-1].strip()] = f"{module}.{words[0].strip()}"
    return names


def declared_type(module):
    """The crate and the name of the type that a module `declared` of definitions speaks of."""
    found = re.match(r"(\w+)\.specs\.declared\.(.*)", module)
    if found:
        for part in found.group(2).split("."):
            if part[:1].isupper():
                return found.group(1), part
    return None


def end_of_braces(text, start):
    """Where the brace that opens at a place is closed."""
    depth = 0
    for found in re.finditer(r'"(?:[^"\\]|\\.)*"|[{}]', text[start:]):
        depth += {"{": 1, "}": -1}.get(found.group(), 0)
        if depth == 0:
            return start + found.end()
    return len(text)


def clauses_from(text, place):
    """The clauses between a function's name and its body."""
    found = []
    while True:
        stop = re.compile(r"\b(requires|ensures)\b[^{;]*\{|[{;]").search(text, place)
        if not stop or not stop.group(1):
            return found
        place = end_of_braces(text, stop.end() - 1)
        found.append((stop.start(), text[stop.end():place - 1]))


def self_type(head):
    """The type of an impl, or the trait's name."""
    head = re.sub(r"<[^<>]*(?:<[^<>]*>[^<>]*)*>", "", head)
    found = re.search(r"\bfor (\w+)", head) or re.search(r"(?:impl|trait)\s+(\w+)", head)
    return found.group(1) if found else ""


def public_functions(crate, text):
    """The public functions of a file: the type that they belong to, if any, and where their names end."""
    blocks = [(block.start(), end_of_braces(text, block.end() - 1), block.group()) for block in BLOCK.finditer(text)]
    for function in FUNCTION.finditer(text):
        place = function.start()
        head = next((head for start, end, head in blocks if start <= place < end), None)
        is_public = function.group(2) == "pub "
        if head is None:
            if is_public and function.group(3) in crate.exported:
                yield "", function.end()
            continue
        owner = self_type(head)
        of_trait = " for " in head or not head.startswith("impl")
        if owner in crate.exported and (is_public or of_trait):
            yield owner, function.end()


def signature_names(text, name):
    """The names in the stated type of a definition."""
    found = re.search(rf"^(?:abbrev|unfoldable) pub {re.escape(name)} : (.*)$", text, re.M)
    found = found or re.search(rf"^pub (?:record|data) {re.escape(name)} (.*)$", text, re.M)
    return set(re.findall(r"[\w.«»-]+", found.group(1))) if found else set()


def private_types(known, name, module):
    """The private types that a name is of, or that the stated type of its definition has."""
    declared = declared_type(module)
    if declared:
        owner = known.get(declared[0])
        if owner and owner.exported and declared[1] not in owner.exported:
            yield declared[1]
        return
    found = re.match(r"(\w+)\.specs\.(\w+)\.(.+)$", module)
    if not found or found.group(1) not in known:
        return
    path = f"crates/{found.group(1)}/specs/{found.group(2)}.antt"
    if os.path.exists(os.path.join(TOP, path)):
        text = read(path)
        names = imported(text)
        for word in signature_names(text, found.group(3)):
            if word in names and declared_type(names[word]):
                yield from private_types(known, word, names[word])


def private_clauses(names):
    known = {name: Crate(name) for name in names}
    for crate in known.values():
        for path, text in crate.sources.items():
            if re.search(r"/tests(/|\.rt)", path):
                continue
            taken = imported(text)
            for owner, place in public_functions(crate, text):
                fields = crate.private_fields.get(owner, set()) if owner not in crate.modelled else set()
                for start, clause in clauses_from(text, place):
                    number = line_of(text, start)
                    for field in re.findall(r"\bself(?:\.(?:now|old|new))?\.(\w+)", clause):
                        if field in fields:
                            yield path, number, f"names the private field {field} of {owner}"
                    for name in set(re.findall(r"[\w«»-]+", clause)) & set(taken):
                        for private in set(private_types(known, name, taken[name])):
                            yield path, number, f"names the private type {private} by {name}"


# The form of files.


def definitions_of(crate):
    """The files of definitions of a crate, without the proofs of its laws."""
    return [path for path in files_below(f"crates/{crate}/specs", ".antt") if "/specs/Laws/" not in path]


def long_lines(names):
    for crate in names:
        for path in files_below(f"crates/{crate}/src", ".rt") + definitions_of(crate):
            for number, line in enumerate(read(path).splitlines(), 1):
                if len(line) > COLUMNS and not re.match(r"\s*(?:pub )?(?:ghost )?use ", line):
                    yield path, number, f"has {len(line)} columns"


DEFINITION = re.compile(r"(?:(?:abbrev|unfoldable)(?: pub)?|pub record|pub data|record|data) (\S+)")


def without_sentence(names):
    for crate in names:
        for path in definitions_of(crate):
            before = ""
            for number, line in enumerate(read(path).splitlines(), 1):
                found = DEFINITION.match(line)
                if found and not re.match(r"-- \S+ \S+", before):
                    yield path, number, f"says nothing of {found.group(1)}"
                before = line


COMMENT = {".rt": r"//.*", ".antt": r"--.*", ".py": r"#.*", ".sh": r"#.*", ".md": r".*", ".edit": r"^#.*"}


def citations(_names):
    for path in files_below(".", *COMMENT):
        pattern = COMMENT[os.path.splitext(path)[1]]
        for number, line in enumerate(read(path).splitlines(), 1):
            comment = re.search(pattern, line)
            cited = comment and re.search(r"\b[DFRSTW][0-9]+\b", comment.group())
            if cited:
                yield path, number, f"cites {cited.group()}"


# Documents.

PLACES = ("docs", "checks", "bench", "examples", "crates", "rows", ".ci")
INSIDE_CRATES = ("src", "specs", "proofs", "must-fail")
ENDINGS = (".md", ".sh", ".py", ".rt", ".antt", ".edit", ".script", ".rows", ".txt")
# Placeholders in names of files.
PLACEHOLDERS = {"NAME", "CRATE", "SUBJECT", "FUNCTION"}


def is_there(name, beside):
    """Whether a name, with `*` for any part, is that of a file or folder: here, beside the document, or in a crate."""
    places = ["", beside, "crates"]
    if "/" not in name or name.split("/")[0] in INSIDE_CRATES:
        places += ["crates/*", "crates/*/src", "crates/*/specs"]
    return any(glob.glob(os.path.join(TOP, place, name)) for place in places)


def is_file_name(word):
    if not re.fullmatch(r"[\w./*-]+", word) or PLACEHOLDERS.intersection(re.split(r"[/.]", word)):
        return False
    first = word.split("/")[0]
    return word.endswith(ENDINGS) or ("/" in word and first in PLACES + INSIDE_CRATES)


def documents():
    return ["README.md", *(path for folder in ("docs", "bench", "rows", "examples") for path in files_below(folder, ".md"))]


def missing_files(_names):
    for path in documents():
        if path.startswith("examples/"):
            # It is about the files in the commits of its scripts.
            continue
        text = read(path)
        # A name is in backquotes, or is where a link leads.
        for found in re.finditer(r"`([^`\n]+)`|\]\(([^)\s#]+)", text):
            for word in (found.group(1) or found.group(2)).split():
                if is_file_name(word) and not is_there(word, os.path.dirname(path)):
                    yield path, line_of(text, found.start()), f"names {word}, which is not there"


def missing_names(names):
    words = set(names)
    for crate in names:
        for path in files_below(f"crates/{crate}", ".rt", ".antt"):
            if "/proofs/" not in path:
                words.update(re.findall(r"\w+", read(path)))
    for path in ("docs/ARCHITECTURE.md", "docs/PROMISES.md"):
        for number, line in enumerate(read(path).splitlines(), 1):
            for name in re.findall(r"`(\w+(?:(?:::|\.)\w+)*)`", line):
                missing = [word for word in re.split(r"::|\.", name) if word not in words]
                if missing and not is_there(name, ""):
                    yield path, number, f"names {name}, and there is no {missing[0]}"


def long_cells(_names):
    for path in documents():
        for number, line in enumerate(read(path).splitlines(), 1):
            if line.startswith("|") and max(map(len, line.strip("|").split("|"))) > CELL:
                yield path, number, f"has a cell of more than {CELL} characters"


def long_readme(_names):
    words = len(read("README.md").split())
    if words > README_WORDS:
        yield "README.md", 1, f"has {words} words"


RULES = {
    "proofs-import": proofs_imports,
    "private-clause": private_clauses,
    "long-line": long_lines,
    "no-sentence": without_sentence,
    "citation": citations,
    "missing-file": missing_files,
    "missing-name": missing_names,
    "long-cell": long_cells,
    "long-readme": long_readme,
}


# Exceptions.


class Allowance:
    """A line of the file of exceptions: how many breaches of a rule there are in files whose paths fit a pattern."""

    def __init__(self, line):
        self.rule, self.pattern, count = line.split()
        self.count = int(count)
        self.found = []

    def fits(self, rule, path):
        return rule == self.rule and fnmatch.fnmatchcase(path, self.pattern)


def exceptions():
    lines = (line.split("#")[0].strip() for line in read(EXCEPTIONS).splitlines())
    return [Allowance(line) for line in lines if line]


def judge(rule, names, allowed):
    """What is to be said of a rule: breaches that are not allowed, and exceptions that are not needed."""
    said = []
    for path, number, what in RULES[rule](names):
        home = next((line for line in allowed if line.fits(rule, path)), None)
        (said if home is None else home.found).append(f"{path}:{number}: {what}")
    for line in allowed:
        if line.rule != rule or len(line.found) == line.count:
            continue
        said.append(f"{line.pattern}: {line.count} are allowed, and there are {len(line.found)}")
        if len(line.found) > line.count:
            said += [f"    {breach}" for breach in line.found]
        else:
            said.append("    lower it: python3 checks/house.py --shrink")
    return said


def shrink(allowed):
    """Lowers each number to what was found, and drops a line that is not needed."""
    kept = []
    lines = iter(allowed)
    for text in read(EXCEPTIONS).splitlines():
        if not text.split("#")[0].strip():
            kept.append(text)
            continue
        line = next(lines)
        count = min(line.count, len(line.found))
        if count:
            kept.append(f"{line.rule} {line.pattern} {count}")
    with open(os.path.join(TOP, EXCEPTIONS), "w", encoding="utf-8") as file:
        file.write("\n".join(kept) + "\n")


def main():
    parser = argparse.ArgumentParser(description=__doc__.split("\n\n")[0])
    parser.add_argument("--shrink", action="store_true", help="lower the exceptions to what there is")
    words = parser.parse_args()
    allowed = exceptions()
    names = crates()
    results = [(rule, judge(rule, names, allowed)) for rule in RULES]
    if words.shrink:
        shrink(allowed)
        return 0
    failed = 0
    for rule, said in results:
        print(f"{'FAIL ' if said else 'ok   '} {rule}")
        for line in said:
            print(f"      {line}")
        failed += bool(said)
    print(f"{len(results) - failed} passed, {failed} failed")
    return 1 if failed else 0


if __name__ == "__main__":
    sys.exit(main())
