#!/usr/bin/env bash
# The repository's own rules of form: boundaries between crates, lines, comments, documents (checks/house.py).
set -uo pipefail
. "$(dirname -- "$(readlink -f -- "${BASH_SOURCE[0]}")")/lib.sh"

needs python3 "the rules of form are not checked"
counts checks/house.py python3 "$top/checks/house.py"

report
