#!/usr/bin/env bash
# Scripts that tools/from-git makes of random repositories give the commits the ids that they have in Git.
set -uo pipefail
. "$(dirname -- "$(readlink -f -- "${BASH_SOURCE[0]}")")/lib.sh"

needs_git "no repository is written as a script"
needs python3 "no repository is written as a script"
counts "repositories as scripts" python3 "$top/checks/from_git.py" "$top" "$scratch"

report
