"""Times `tus-server talk` and `cat` over the same files, and prints tables in Markdown.

Arguments: the program, and a folder to work in, where one_byte_reads.so lies.
"""

import os
import statistics
import subprocess
import sys
import time

from inputs import KIB, MIB, UPLOAD_MAX, checksum, creations, gets, heads, keys, patches

RUNS = 9
SLOW_RUNS = 5

PROGRAM, WORK = sys.argv[1:3]
SHIM = os.path.join(WORK, "one_byte_reads.so")
COUNT = os.path.join(WORK, "reads")
TALK = [PROGRAM, "talk", "--moment", "1000", "--max-size", str(UPLOAD_MAX), "acme:4096"]
CAT = ["cat"]
SHA1SUM = ["sha1sum"]


# ---- a run


def process(command, path, shim, output):
    environment = dict(os.environ)
    if shim:
        environment.update(LD_PRELOAD=SHIM, ONE_BYTE_READS=COUNT)
    with open(path, "rb") as source:
        return subprocess.run(command, stdin=source, stdout=output, env=environment, check=True)


def run(command, path, shim=False):
    """The seconds from the start of the process to its end."""
    start = time.perf_counter()
    process(command, path, shim, subprocess.DEVNULL)
    return time.perf_counter() - start


def answer(path, shim=False):
    """What `talk` writes."""
    return process(TALK, path, shim, subprocess.PIPE).stdout


def one_byte_reads():
    with open(COUNT) as file:
        return int(file.read())


def written(text, replies, shim=False):
    """The file of an input, whose conversation was seen to get the replies that it is to get."""
    path = os.path.join(WORK, "input")
    with open(path, "wb") as file:
        file.write(text)
    whole = answer(path)
    for status, number in replies.items():
        seen = whole.count(f"HTTP/1.1 {status} ".encode())
        assert seen == number, f"{seen} replies {status}, and not {number}"
    assert whole.count(b"HTTP/1.1 ") == sum(replies.values())
    if shim:
        assert answer(path, shim) == whole
    return path


def times(path, runs, shim=False):
    """The times of the program and of `cat`, by turns."""
    talk, cat = [], []
    for _ in range(runs):
        talk.append(run(TALK, path, shim))
        if shim:
            assert one_byte_reads() >= os.path.getsize(path)
        cat.append(run(CAT, path, shim))
    return talk, cat


# ---- tables


def milliseconds(seconds):
    return f"{min(seconds) * 1000:.1f} ({statistics.median(seconds) * 1000:.1f})"


def table(title, *columns):
    print(f"\n{title}\n")
    print("| " + " | ".join(columns) + " |")
    print("|---" * len(columns) + "|", flush=True)


def row(*cells):
    print("| " + " | ".join(str(cell) for cell in cells) + " |", flush=True)


def measure(title, inputs, runs, shim=False):
    """A table of one kind of input; `inputs` has a label and a function for each row."""
    table(
        f"{title}, best of {runs} runs (and the median):",
        "input", "messages", "MB", "`talk`, ms", "`cat`, ms", "`talk`, MB/s", "`talk`, messages/s", "`talk` / `cat`",
        "times the row above",
    )
    before = None
    for label, make in inputs:
        text, replies = make()
        path = written(text, replies, shim)
        talk, cat = times(path, runs, shim)
        best, messages = min(talk), sum(replies.values())
        row(
            label, messages, f"{len(text) / 1e6:.2f}", milliseconds(talk), milliseconds(cat),
            rate(len(text) / 1e6 / best), rate(messages / best), f"{best / min(cat):.1f}",
            f"{best / before:.1f}" if before else "",
        )
        before = best


def measure_checksums():
    """PATCHes of 1 MiB with a checksum and without, beside `sha1sum` and `cat` of the same file."""
    table(
        f"16 PATCHes of 1 MiB, best of {RUNS} runs (and the median):",
        "checksum", "`talk`, ms", "`cat`, ms", "`sha1sum`, ms", "`talk` without, and `sha1sum`, ms",
    )
    plain = None
    for label, field_of in [("none", lambda body: ""), ("SHA-1", checksum)]:
        text, replies = patches(16 * MIB, MIB, UPLOAD_MAX, field_of)
        path = written(text, replies)
        talk, cat = times(path, RUNS)
        hashed = [run(SHA1SUM, path) for _ in range(RUNS)]
        plain = plain or min(talk)
        row(label, milliseconds(talk), milliseconds(cat), milliseconds(hashed), f"{(plain + min(hashed)) * 1000:.1f}")


def rate(number):
    return f"{number:.0f}" if number >= 100 else f"{number:.1f}"


def size_name(size):
    return f"{size // MIB} MiB" if size >= MIB else f"{size // KIB} KiB"


def patch_rows(piece):
    sizes = [MIB, 4 * MIB, 16 * MIB]
    return [(size_name(size), lambda size=size: patches(size, piece, UPLOAD_MAX)) for size in sizes]


def main():
    path = written(b"", {})
    talk, cat = times(path, RUNS)
    print(f"An empty input, best of {RUNS} runs (and the median): `talk` {milliseconds(talk)} ms, `cat` {milliseconds(cat)} ms.")
    for piece in [4 * KIB, 64 * KIB, MIB]:
        measure(f"PATCHes of {size_name(piece)} into one upload", patch_rows(piece), RUNS)
    measure_checksums()
    measure("PATCHes of 64 KiB into uploads of 1 MiB", [("16 MiB", lambda: patches(16 * MIB, 64 * KIB, MIB))], RUNS)
    small = [(f"{number} HEADs", lambda number=number: heads(number)) for number in [1023, 4095]]
    measure("Small HEADs after one POST", small, RUNS)
    metadata = [(f"keys: {number + 1}", lambda number=number: creations(4096, keys(number))) for number in [0, 85, 170, 340]]
    measure("POSTs with 1,024 bytes of metadata", metadata, RUNS)
    contents = [(f"of {size_name(size)}", lambda size=size: gets(size)) for size in [4 * KIB, 64 * KIB, MIB]]
    measure("64 GETs after one PATCH", contents, RUNS)
    measure("PATCHes of 64 KiB into one upload, one byte a read", patch_rows(64 * KIB), SLOW_RUNS, shim=True)
    measure("Small HEADs after one POST, one byte a read", small, SLOW_RUNS, shim=True)
    long = [(f"{size} bytes a head", lambda size=size: heads(640_000 // size, size)) for size in [1000, 4000, 16_000]]
    measure("HEADs with a long field, one byte a read", long, SLOW_RUNS, shim=True)


main()
