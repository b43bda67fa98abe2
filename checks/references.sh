#!/usr/bin/env bash
# Random histories of edits of references are made as Git makes them: lists of updates and deletions, with what they expect
# and whether they follow symbolic names; symbolic names; logs by each setting; namespaces. references.py says what is left
# out. Both kinds of ids.
set -uo pipefail
. "$(dirname -- "$(readlink -f -- "${BASH_SOURCE[0]}")")/lib.sh"

needs_git "no history of references is compared with Git"
needs python3 "no history of references is compared with Git"
build store_probe
counts "the comparison of references" python3 "$top/checks/references.py" "$top/crates/store_probe/out/store_probe" "$scratch"

report
