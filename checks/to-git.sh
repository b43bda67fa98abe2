#!/usr/bin/env bash
# Repositories that tools/to-git makes of folders have the objects, the references and the logs of the folder, and Git
# finds nothing wrong with them.
set -uo pipefail
. "$(dirname -- "$(readlink -f -- "${BASH_SOURCE[0]}")")/lib.sh"

needs_git "no folder is copied into a repository"
needs python3 "no folder is copied into a repository"
counts "folders as repositories" python3 "$top/checks/to_git.py" "$top" "$scratch"

report
