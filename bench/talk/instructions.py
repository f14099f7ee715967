#!/usr/bin/env python3
"""Counts the instructions that `tus-server talk` takes for a message, by valgrind's callgrind, and prints a table.

Arguments: programs that were built, each a column. What an empty input takes is taken off, and so is what the messages
take that come before those that are counted.
"""

import re
import subprocess
import sys

from inputs import KIB, MIB, UPLOAD_MAX, checksum, created, heads, joins, patches

OPTIONS = ["talk", "--moment", "1000", "--max-size", str(UPLOAD_MAX), "acme:4096"]


def instructions(program, text):
    """All that a run of `talk` takes with this input."""
    command = ["valgrind", "--tool=callgrind", "--callgrind-out-file=/dev/null", program, *OPTIONS]
    run = subprocess.run(command, input=text, capture_output=True, check=True)
    return int(re.search(rb"Collected : (\d+)", run.stderr)[1])


def patched(piece, number, field_of=lambda body: ""):
    return lambda: patches(number * piece, piece, UPLOAD_MAX, field_of)[0] if number else b""


# what is counted, an input with it and one without, and how many messages that makes
ROWS = [
    ("a small HEAD", lambda: heads(1024)[0], lambda: heads(0)[0], 1024),
    ("a PATCH of 4 KiB", patched(4 * KIB, 1025), patched(4 * KIB, 1), 1024),
    ("a PATCH of 1 MiB", patched(MIB, 16), patched(MIB, 1), 15),
    ("the same with a checksum", patched(MIB, 16, checksum), patched(MIB, 1, checksum), 15),
    ("a creation", lambda: created(64)[0], lambda: b"", 64),
    ("a join of two parts", lambda: joins(62)[0], lambda: joins(0)[0], 62),
]


def main():
    programs = sys.argv[1:]
    print("| message | " + " | ".join(programs) + " |")
    print("|---" * (1 + len(programs)) + "|", flush=True)
    for label, whole, before, number in ROWS:
        text, front = whole(), before()
        counts = [(instructions(program, text) - instructions(program, front)) // number for program in programs]
        print(f"| {label} | " + " | ".join(f"{count:,}" for count in counts) + " |", flush=True)


main()
