"""Mutants as they stand in files, the functions that they change, and the clauses that they name."""

import hashlib
import functools
import os
import re

TOP = os.path.dirname(os.path.dirname(os.path.abspath(__file__)))
FUNCTION = re.compile(r"^( *)(?:pub(?:\([a-z]+\))? )?(?:const )?fn (\w+)")


class Source:
    """A file of a crate's sources, whose functions can be told by their lines."""

    def __init__(self, path):
        with open(path, encoding="utf-8") as file:
            self.text = file.read()
        self.lines = self.text.split("\n")

    def function_at(self, line):
        """Returns the first line and the name of the function that stands around a line, both counted from 0, or None."""
        for first in range(line, -1, -1):
            found = FUNCTION.match(self.lines[first])
            if found:
                last = first
                while last < len(self.lines) and not re.match(found[1] + r"(\}|\{\})", self.lines[last]):
                    last += 1
                if line <= last:
                    return first, found[2]
        return None

    def contracts_of(self, name):
        """Returns the text of the contract of each function of a name."""
        contracts = []
        for first, text in enumerate(self.lines):
            found = FUNCTION.match(text)
            if found and found[2] == name:
                last = first
                while last < len(self.lines) and not re.match(found[1] + r"\{|.*;$|.*\{\}$", self.lines[last]):
                    last += 1
                contracts.append("\n".join(self.lines[first : last + 1]))
        return contracts


class Edit:
    """A mutant: the texts of one crate's files that it puts in place of others, and the clause that it names."""

    def __init__(self, crate, path):
        self.crate, self.path, self.name = crate, path, os.path.basename(path).removesuffix(".edit")
        self.clause, self.changes, file, old = None, [], "", ""
        with open(path, encoding="utf-8") as lines:
            for line in lines.read().split("\n"):
                if line.startswith("clause: "):
                    self.clause = line.removeprefix("clause: ")
                elif line.startswith("file: "):
                    file = line.removeprefix("file: ").strip()
                elif line.startswith("old: "):
                    old = line.removeprefix("old: ")
                elif line.startswith("new:"):
                    self.changes.append((file, old, line.removeprefix("new:").removeprefix(" ")))

    def functions(self):
        """Returns the functions whose text it changes, as pairs of a file and a name, or None where it changes something else."""
        found = set()
        for file, old, _ in self.changes:
            path = f"{TOP}/crates/{self.crate}/{file}"
            if not os.path.isfile(path):
                return None
            source = Source(path)
            if source.text.count(old) != 1:
                return None
            around = source.function_at(source.text[: source.text.index(old)].count("\n"))
            if not around:
                return None
            found.add((file, around[1]))
        return found

    def apply(self, folder):
        """Puts its texts in place in a copy of the crate. Returns whether each old text stood there once."""
        for file, old, new in self.changes:
            path = f"{folder}/{file}"
            if not os.path.isfile(path):
                return False
            with open(path, encoding="utf-8") as it:
                text = it.read()
            if text.count(old) != 1:
                return False
            with open(path, "w", encoding="utf-8") as it:
                it.write(text.replace(old, new))
        return True

    def has_its_place(self):
        """Returns whether it stands in the folder that is named as the file that it changes first."""
        file = self.changes[0][0] if self.changes else ""
        place = file.removeprefix("src/").removesuffix(".rt")
        return os.path.dirname(self.path) == f"{TOP}/mutants/{self.crate}/{place}"

    def has_clause(self):
        """Returns whether the clause that it names is there: in this crate or one below it."""
        found = re.fullmatch(r"(?:(\w+)::)?(\w+) (ensures|requires|invariant|gives|safe)(?: (\w+))?", self.clause or "")
        if not found:
            return False
        _, name, kind, clause = found.groups()
        sources = sources_of(tuple(with_those_below(self.crate)))
        if kind in ("invariant", "gives"):
            trait = "Model for" if kind == "invariant" else r"From<(\w+::)*"
            return any(re.search(rf"impl(<[^>]*>)? {trait} ?{name}\b", it.text) for it in sources)
        contracts = [text for it in sources for text in it.contracts_of(name)]
        if kind == "safe":
            return bool(contracts)
        wanted = re.compile(rf"^ *{kind}\*?{' ' + clause if clause else ''} \{{", re.MULTILINE)
        return any(wanted.search(text) for text in contracts)


def crates():
    """Returns the crates of the repository, lowest first, with what each uses."""
    found = {}
    with open(f"{TOP}/crates.txt", encoding="utf-8") as lines:
        for line in lines:
            name, colon, uses = line.partition(":")
            if colon and not line.startswith("#"):
                found[name.split()[0]] = uses.split()
    return found


def with_those_below(crate):
    """Returns the repository's crates below a crate, lowest first, and the crate."""
    uses, found = crates(), []

    def visit(name):
        if name in uses and name not in found:
            for lower in uses[name]:
                visit(lower)
            found.append(name)

    visit(crate)
    return found


def files_of(crate):
    """Returns the files that a verdict on a crate rests on."""
    found = []
    for part in ("src", "specs", "proofs"):
        for at, folders, names in os.walk(f"{TOP}/crates/{crate}/{part}"):
            folders.sort()
            found += [f"{at}/{name}" for name in sorted(names)]
    return found


@functools.cache
def sources_of(names):
    """Returns the sources of crates."""
    return [Source(path) for name in names for path in files_of(name) if path.endswith(".rt")]


def edits_in(crate, folder):
    """Returns the edits of a crate that stand in a folder or in those within it, by their names."""
    found = [f"{at}/{name}" for at, _, names in os.walk(folder) for name in names if name.endswith(".edit")]
    return [Edit(crate, path) for path in sorted(found, key=os.path.basename)]


def mutants_of(crate):
    """Returns the mutants of a crate, but for the gate's."""
    return edits_in(crate, f"{TOP}/mutants/{crate}")


def all_edits():
    """Returns the mutants of all crates, with the gate's."""
    return [it for crate in crates() for it in mutants_of(crate) + edits_in(crate, f"{TOP}/crates/{crate}/must-fail")]


def sum_of(crate):
    """Returns the sum of all that a verdict on a crate's mutants rests on: the sources of it and of those below it, and what the mutants change."""
    total = hashlib.sha256()
    for path in [path for name in with_those_below(crate) for path in files_of(name)]:
        with open(path, "rb") as it:
            total.update(repr((os.path.relpath(path, TOP), it.read())).encode())
    for edit in mutants_of(crate):
        total.update(repr((edit.name, edit.changes)).encode())
    return total.hexdigest()[:16]
