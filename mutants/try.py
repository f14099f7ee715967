"""Tries mutants: mutants/try.sh says how it is called.

The mutants of a crate that change different functions are put in place together, and the crate is checked once: the prover
says of each function by itself whether it is refused. What was not refused so is tried alone, by the tool's own `rt
must-fail`, whose verdict counts.
"""

import argparse
import os
import re
import shutil
import subprocess
import sys
import tempfile
import time
from concurrent.futures import ThreadPoolExecutor

from edits import TOP, Source, all_edits, crates, mutants_of, sum_of, with_those_below

TRIED = f"{TOP}/mutants/TRIED"
# A line of a check that tells of a place; an error of the front end, which names no goal, so that the text was not read; and
# the words by which a proof file only misses a name that the mutant took away.
PLACE = re.compile(r"(note: )?(?:\./)?(\S+?):(\d+):\d+: (.*)")
UNREAD = re.compile(r"^(?:\./)?(?:src|specs)/\S+:\d+:\d+: error: (?!`)", re.MULTILINE)
NAMES = re.compile(r"has no field|is not in scope|has no `|was not admitted")


def run(words, folder):
    """Runs a command of the toolchain in a folder, and returns its status and what it said."""
    ran = subprocess.run(words, cwd=folder, stdin=subprocess.DEVNULL, stdout=subprocess.PIPE, stderr=subprocess.STDOUT, errors="replace")
    return ran.returncode, ran.stdout


class Copy:
    """A copy of a crate and of those below it, with what is kept of their proofs."""

    def __init__(self, room, crate):
        self.top, self.crate = f"{room}/{crate}", crate
        self.folder = f"{self.top}/crates/{crate}"
        names = with_those_below(crate)
        for name in names:
            leave_out = shutil.ignore_patterns("must-fail", *([] if name == crate else ["incremental"]))
            shutil.copytree(f"{TOP}/crates/{name}", f"{self.top}/crates/{name}", ignore=leave_out)
        with open(f"{TOP}/crates.txt", encoding="utf-8") as lines, open(f"{self.top}/crates.txt", "w", encoding="utf-8") as it:
            it.writelines(line for line in lines if line.split(":")[0] in names)
        shutil.copy(f"{TOP}/HANDLES", self.top)
        run(["git", "init", "-q"], self.top)

    def check(self):
        """Checks the crate over what is kept. Returns whether it is proved, and what was said."""
        status, said = run(["rt", "check", "--jobs", "1"], self.folder)
        return status == 0, said

    def restore(self):
        """Puts the crate's own sources back."""
        for part in ("src", "specs", "proofs"):
            if os.path.isdir(f"{self.folder}/{part}"):
                shutil.rmtree(f"{self.folder}/{part}")
                shutil.copytree(f"{TOP}/crates/{self.crate}/{part}", f"{self.folder}/{part}")

    def refused_functions(self, said):
        """Returns the functions that a check refused, each with the first place that shows more than a missing name."""
        found, sources = {}, {}
        for line in said.split("\n"):
            at = PLACE.match(line)
            if not at or not at[1] and ": error" not in line:
                continue
            file, number, text = at[2], int(at[3]), at[4]
            if file.startswith("proofs/"):
                parts = file.split("/")[1:-1]
                file = next((f"src/{'/'.join(parts[:end])}.rt" for end in range(len(parts) - 1, 0, -1)
                             if os.path.isfile(f"{self.folder}/src/{'/'.join(parts[:end])}.rt")), "")
                around = (file, parts[-1]) if file else None
            elif os.path.isfile(f"{self.folder}/{file}"):
                source = sources.setdefault(file, Source(f"{self.folder}/{file}"))
                place = source.function_at(number - 1)
                around = (file, place[1]) if place else None
            else:
                around = None
            if around and (around not in found or NAMES.search(found[around])):
                found[around] = text
        return found


def in_batches(edits):
    """Returns the edits in lists, in each of which no two change one function; one that changes something else is a list."""
    batches, alone = [], []
    for edit in edits:
        changed = edit.functions()
        if not changed:
            alone.append([edit])
            continue
        for batch, functions in batches:
            if not functions & changed:
                batch.append(edit)
                functions |= changed
                break
        else:
            batches.append(([edit], set(changed)))
    return [batch for batch, _ in batches] + alone


def try_batch(copy, batch, tell):
    """Checks the crate with these edits. Returns those that were refused in a function that they change, or anywhere where
    that is no function."""
    refused = {}
    if all([edit.apply(copy.folder) for edit in batch]):
        proved, said = copy.check()
        if not proved and "logic=not-proved" in said and not UNREAD.search(said):
            refused = copy.refused_functions(said)
    copy.restore()
    found = []
    for edit in batch:
        where = edit.functions() or refused
        goals = [(name, refused[file, name]) for file, name in where if (file, name) in refused]
        shown = next((it for it in goals if not NAMES.search(it[1])), None)
        if shown:
            tell(f"{edit.crate}/{edit.name}: refused in {shown[0]}: {shown[1][:160]}")
            found.append(edit)
    return found


def try_alone(copy, edits, tell):
    """Tries each edit by itself. Returns those that were refused."""
    if not edits:
        return []
    folder = f"{copy.folder}/must-fail"
    os.mkdir(folder)
    for edit in edits:
        shutil.copy(edit.path, folder)
    _, said = run(["rt", "must-fail", copy.crate], copy.top)
    shutil.rmtree(folder)
    for line in said.split("\n"):
        if "must-fail " in line:
            tell(line.removeprefix("rt: must-fail ").replace(".edit", ""))
    return [it for it in edits if f"{it.crate}/{it.name}.edit: refused, as it must be" in said]


def try_crate(room, crate):
    """Tries the mutants of a crate. Returns them, a line for each that was not refused, what was said, and the sum of the sources
    on which they were tried."""
    edits, stood, copy, told = mutants_of(crate), sum_of(crate), Copy(room, crate), []
    proved, said = copy.check()
    if not proved:
        told.append(said[-2000:])
        return edits, [f"{crate}/{it.name} is not tried, since {crate} is not proved" for it in edits], told, stood
    refused = []
    for batch in in_batches(edits):
        refused += try_batch(copy, batch, told.append)
    left = [it for it in edits if it not in refused]
    proved, _ = copy.check()
    if not proved:
        # what was kept is not sound, so nothing that was said over it counts
        left, refused = edits, []
    refused += try_alone(copy, left, told.append)
    shutil.rmtree(copy.top)
    return edits, [f"{crate}/{it.name} survived" for it in edits if it not in refused], told, stood


def build_below(names):
    """Builds the libraries on which these crates stand, where they have changed, so that each copy has them."""
    below = [it for it in crates() if any(it in with_those_below(name)[:-1] for name in names)]
    for name in below:
        status, said = run(["rt", "lib"], f"{TOP}/crates/{name}")
        if status:
            sys.exit(f"{name} is not proved:\n{said[-2000:]}")


def tried_lines():
    """Returns the lines of TRIED by their crates."""
    if not os.path.isfile(TRIED):
        return {}
    with open(TRIED, encoding="utf-8") as lines:
        return {line.split()[0]: line.rstrip("\n") for line in lines}


def is_tried(crate):
    """Returns whether a crate's mutants were all refused as they and its sources are now."""
    return tried_lines().get(crate, " none").split()[-1] == sum_of(crate)


def note(crate, line):
    """Writes a crate's line in TRIED, or takes it away where there is none."""
    lines = tried_lines() | {crate: line}
    with open(TRIED, "w", encoding="utf-8") as it:
        it.writelines(f"{lines[name]}\n" for name in sorted(lines) if lines[name])


def part_of(names, part, parts):
    """Returns the part of these crates: each goes to the part with the fewest mutants so far, those with the most first."""
    loads = [[0, []] for _ in range(parts)]
    for name in sorted(names, key=lambda it: -len(mutants_of(it))):
        least = min(loads, key=lambda it: it[0])
        least[0] += len(mutants_of(name))
        least[1].append(name)
    return loads[part - 1][1]


def try_all(names, lanes):
    """Tries the mutants of crates, and returns how many survived."""
    build_below(names)
    refused, survived = 0, []
    with tempfile.TemporaryDirectory(prefix="mutants-") as room, ThreadPoolExecutor(lanes) as pool:
        try:
            for crate, outcome in [(it, pool.submit(try_crate, room, it)) for it in names]:
                edits, left, told, stood = outcome.result()
                print("\n".join(told), f"\n{crate}: {len(edits) - len(left)} of {len(edits)} refused", flush=True)
                refused, survived = refused + len(edits) - len(left), survived + left
                day = time.strftime("%Y-%m-%d", time.gmtime())
                note(crate, None if left else f"{crate} {len(edits)} {day} {stood}")
        except BaseException:
            pool.shutdown(cancel_futures=True)
            raise
    for it in survived:
        print(it)
    print(f"{refused} refused, {len(survived)} survived")
    return len(survived)


def tell_tried():
    """Tells which mutants are tried on the sources that stand now, and returns how many are not."""
    tried, every = 0, 0
    for crate in crates():
        count = len(mutants_of(crate))
        every += count
        if count and is_tried(crate):
            tried += count
        elif count:
            print(f"{crate}: {count}, {'tried on other sources' if crate in tried_lines() else 'not tried'}")
    print(f"{tried} of {every} mutants are tried on these sources")
    return every - tried


def check_clauses():
    """Tells which mutants name no clause that is there, or stand in another folder than their file's, and returns how many."""
    strays = [it for it in sorted(os.listdir(f"{TOP}/mutants")) if os.path.isdir(f"{TOP}/mutants/{it}") and it not in crates()]
    for it in strays:
        print(f"mutants/{it}: there is no such crate")
    misplaced = [it for crate in crates() for it in mutants_of(crate) if not it.has_its_place()]
    for it in misplaced:
        print(f"{os.path.relpath(it.path, TOP)}: it changes a file that the folder is not named for")
    edits = all_edits()
    lost = [it for it in edits if not it.has_clause()]
    for it in lost:
        print(f"{os.path.relpath(it.path, TOP)}: {it.clause or 'no clause'} is not there")
    print(f"{len(edits) - len(lost)} of {len(edits)} mutants name a clause that is there")
    return len(lost) + len(strays) + len(misplaced)


def main():
    asked = argparse.ArgumentParser(prog="mutants/try.sh", description="Has the prover refuse the mutants.")
    asked.add_argument("--slice", nargs=2, type=int, metavar=("K", "N"), default=(1, 1))
    asked.add_argument("--jobs", type=int, default=len(os.sched_getaffinity(0)))
    asked.add_argument("--tried", action="store_true")
    asked.add_argument("--clauses", action="store_true")
    asked.add_argument("crates", nargs="*", metavar="CRATE")
    given = asked.parse_args()
    if given.tried:
        return tell_tried()
    if given.clauses:
        return check_clauses()
    part, parts = given.slice
    if not 1 <= part <= parts or not set(given.crates) <= set(crates()):
        asked.error("there is no such part, or no such crate")
    names = part_of(given.crates or [it for it in crates() if mutants_of(it)], part, parts)
    return try_all([it for it in names if given.crates or not is_tried(it)], given.jobs)


if __name__ == "__main__":
    sys.exit(1 if main() else 0)
