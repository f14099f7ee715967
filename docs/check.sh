#!/usr/bin/env bash
# Checks the pages of the project, and prints one line for each fault:
#   - each page has no more words (`wc -w`) than its budget, and so have the READMEs of crates/ with that of refused_memory/,
#     and those of bench/, together;
#   - each link to a file of the repository leads to one;
#   - each file, contract or definition in code font that CLAIMS names before its section on what is trusted is there: a path
#     with a slash below crates/ or at the top, any other name in a source, a definition or a mutant of crates/ or of
#     refused_memory/;
#   - CLAIMS has the headline sentence, and no page begins a sentence with 'That' (a code block, a list of printed lines and
#     TRY are left out).
# The status is 1 where there was a fault, and else 0.
set -uo pipefail
cd "$(dirname "${BASH_SOURCE[0]}")/.."
faults=0

fault() {
    printf '%s\n' "$1"
    faults=$((faults + 1))
}

# A page without its code blocks and indented lines.
prose() {
    awk '/^```/ { code = !code; next } !code && !/^    / { print }' "$1"
}

# These pages have so many words at most, together.
budget() {
    local most=$1 name=$2 words
    shift 2
    words=$(cat "$@" | wc -w)
    [ "$words" -le "$most" ] || fault "$name has $words words, and may have $most"
}

budget 650 README.md README.md
budget 3500 docs/DESIGN.md docs/DESIGN.md
budget 2800 docs/CLAIMS.md docs/CLAIMS.md
budget 1200 docs/STATUS.md docs/STATUS.md
budget 3500 'docs/OPERATIONS.md and docs/JOURNAL.md' docs/OPERATIONS.md docs/JOURNAL.md
budget 4500 docs/DECISIONS.md docs/DECISIONS.md
budget 900 docs/SCALE.md docs/SCALE.md
budget 5000 docs/PROVING.md docs/PROVING.md
budget 16000 'crates/ and refused_memory/' crates/*/README.md refused_memory/README.md
budget 6000 bench/ bench/*/README.md

pages=(README.md mutants/README.md docs/*.md crates/*/README.md refused_memory/README.md bench/*/README.md)

for page in "${pages[@]}"; do
    while read -r link; do
        [ -e "$(dirname "$page")/$link" ] || fault "$page links to $link, which is not there"
    done < <(prose "$page" | grep -o '](\([^)#]*\)' | sed 's/^](//' | grep -v '^https\?:' | grep .)
    if [ "$page" != docs/TRY.md ]; then
        while read -r line; do
            fault "$page has a sentence that begins with 'That': $line"
        done < <(prose "$page" | grep -oE '(^|[.!?] |[|-] )That [^.]{0,40}')
    fi
done

names=$(find crates refused_memory -name out -prune -o \( -name '*.rt' -o -name '*.rt.in' -o -name '*.antt' -o -name '*.edit' \) -exec cat {} + | grep -oE '[A-Za-z_][A-Za-z0-9_]*' | sort -u)
while read -r name; do
    if [[ $name == */* ]]; then
        [ -e "crates/$name" ] || [ -e "crates/$name.antt" ] || [ -e "crates/$name.rt" ] || [ -e "$name" ] ||
            fault "docs/CLAIMS.md names $name, which is not there"
    else
        for word in ${name//::/ }; do
            grep -qx -- "$word" <<<"$names" || fault "docs/CLAIMS.md names $name, of which $word is in no crate"
        done
    fi
done < <(prose docs/CLAIMS.md | sed '/^## Trusted/,$d' | grep -o '`[^`]*`' | tr -d '`' | grep -E '^[A-Za-z_][A-Za-z0-9_/.]*(::[A-Za-z_][A-Za-z0-9_]*)*$' | grep -v '/$' | sort -u)
grep -q "^> \*\*Whenever the store's lock is got, every block is free or counted by exactly its holders" docs/CLAIMS.md ||
    fault 'docs/CLAIMS.md lacks the headline sentence'

[ "$faults" -eq 0 ] || exit 1
