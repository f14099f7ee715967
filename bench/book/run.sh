#!/bin/sh
# Proves, builds and runs the benchmark of the book, in a folder of its own. Its sources end in `.in`, since the gate
# wants every source file to belong to a crate that it proves.
set -e
here=$(cd "$(dirname "$0")" && pwd)
work=$(mktemp -d)
trap 'rm -rf "$work"' EXIT
mkdir "$work/crates"
for crate in block_pool block_bodies tus_text upload_book; do
    cp -r "$here/../../crates/$crate" "$work/crates/"
done
cp -r "$here/book_bench" "$work/crates/"
find "$work/crates/book_bench" -name '*.in' | while read -r file; do mv "$file" "${file%.in}"; done
grep -E '^(block_pool|block_bodies|tus_text|upload_book):' "$here/../../crates.txt" > "$work/crates.txt"
printf 'book_bench: upload_book tus_text anyhow\n' >> "$work/crates.txt"
cd "$work/crates/book_bench"
rt run
