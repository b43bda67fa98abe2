#!/usr/bin/env bash
# The generator's commits are those that Git makes of the same files, over memory and folders of both kinds of ids.
set -uo pipefail
. "$(dirname -- "$(readlink -f -- "${BASH_SOURCE[0]}")")/lib.sh"

needs_git "no generated commit is compared with it"
needs python3 "no generated commit is compared"
counts "the generator beside Git" python3 "$top/checks/generate.py" "$top" "$scratch"

report
