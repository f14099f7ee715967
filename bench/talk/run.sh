#!/usr/bin/env bash
# Measures `tus-server talk` beside `cat`, and prints the tables of README.md. What it makes goes into a
# temporary folder.
set -euo pipefail
here=$(cd "$(dirname "${BASH_SOURCE[0]}")" && pwd)
top=$(cd "$here/../.." && pwd)
work=$(mktemp -d)
trap 'rm -rf "$work"' EXIT
"$top/tus-server" --help > "$work/help"
gcc -O2 -shared -fPIC -o "$work/one_byte_reads.so" "$here/one_byte_reads.c"
python3 "$here/measure.py" "$top/crates/tus_server/out/tus_server" "$work"
