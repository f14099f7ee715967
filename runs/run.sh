#!/usr/bin/env bash
# Runs the server on each folder beside this script, and compares what it writes and its exit status with what the
# folder says, byte for byte. It says the name of each run that differs, and fails then.
#
#   runs/run.sh [PROGRAM]
#
# With no PROGRAM it takes the server that ./tus-server builds. A run's folder has `args` (one word a line), `stdin`,
# `stdout`, `stderr` and `status`; what is missing is empty, and a missing status is 0. Where there is a file
# `through`, that bash script runs the program, and is given it with its words.
set -euo pipefail
runs=$(cd "$(dirname "${BASH_SOURCE[0]}")" && pwd)
program=$runs/../crates/tus_server/out/tus_server
if [ $# -gt 0 ]; then program=$(realpath "$1"); else "$runs/../tus-server" --help >/dev/null; fi
got=$(mktemp -d)
trap 'rm -rf "$got"' EXIT

# The file of the run, or nothing where it has none.
file() {
    if [ -e "$1" ]; then printf '%s' "$1"; else printf /dev/null; fi
}

# Runs the server on a folder, and says how what it does differs from what the folder says.
try() {
    local run=$1 name status=0 wanted words command differs=()
    name=$(basename "$run")
    mapfile -t words < "$(file "$run/args")"
    command=("$program" "${words[@]}")
    if [ -e "$run/through" ]; then command=(bash "$run/through" "${command[@]}"); fi
    timeout 60 "${command[@]}" < "$(file "$run/stdin")" > "$got/$name.out" 2> "$got/$name.err" || status=$?
    wanted=$(cat "$(file "$run/status")")
    cmp -s "$got/$name.out" "$(file "$run/stdout")" || differs+=("standard output")
    cmp -s "$got/$name.err" "$(file "$run/stderr")" || differs+=("standard error")
    [ "$status" = "${wanted:-0}" ] || differs+=("status $status in place of ${wanted:-0}")
    if [ ${#differs[@]} -eq 0 ]; then
        touch "$got/$name.passed"
    else
        printf 'runs/%s differs: %s\n' "$name" "$(IFS=,; printf '%s' "${differs[*]}")"
    fi
}

# Four at once, since most of them wait.
count=0
for run in "$runs"/*/; do
    count=$((count + 1))
    while [ "$(jobs -rp | wc -l)" -ge 4 ]; do wait -n || true; done
    try "$run" &
done
wait
passed=$(find "$got" -name '*.passed' | wc -l)
printf '%d runs passed, %d failed\n' "$passed" $((count - passed))
[ "$passed" -eq "$count" ] && [ "$count" -gt 0 ]
