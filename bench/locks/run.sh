#!/bin/sh
# Proves, builds and runs the benchmark of the lock, in a folder of its own. Its sources end in `.in`, since the gate
# wants every source file to belong to a crate that it proves.
set -e
here=$(cd "$(dirname "$0")" && pwd)
work=$(mktemp -d)
trap 'rm -rf "$work"' EXIT
mkdir "$work/crates"
crates='block_pool block_bodies tus_text upload_book tus_steps head_board tus_shared'
for crate in $crates; do
    cp -r "$here/../../crates/$crate" "$work/crates/"
    grep "^$crate:" "$here/../../crates.txt" >> "$work/crates.txt"
done
cp -r "$here/lock_bench" "$work/crates/"
find "$work/crates/lock_bench" -name '*.in' | while read -r file; do mv "$file" "${file%.in}"; done
printf 'lock_bench: tus_shared tus_steps upload_book tus_text anyhow\n' >> "$work/crates.txt"
cd "$work/crates/lock_bench"
rt run
