#!/usr/bin/env bash
# Has the prover refuse the mutants of this folder.
#
#     mutants/try.sh [--slice K N] [--jobs N] [CRATE..]
#                                               tries those of the crates named, or of all whose line in TRIED is not of the
#                                               sources that stand now; with --slice the K-th of N parts of the crates; so
#                                               many crates at once, as many as there are processors unless told
#     mutants/try.sh --tried                    tells which are tried on the sources that stand now
#     mutants/try.sh --clauses                  checks that each mutant, here and in must-fail, names a clause that is there, and
#                                               that each here stands in the folder of the file that it changes
exec python3 -B "$(dirname "${BASH_SOURCE[0]}")/try.py" "$@"
