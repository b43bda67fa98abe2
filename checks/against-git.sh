#!/usr/bin/env bash
# Random scripts of commits are answered as Git's plumbing says, over stores of both kinds of ids.
set -uo pipefail
. "$(dirname -- "$(readlink -f -- "${BASH_SOURCE[0]}")")/lib.sh"

needs_git "no random script is compared with it"
needs python3 "no random script is made"
counts "the comparison with Git" python3 "$top/checks/against_git.py" "$top/gx"

report
