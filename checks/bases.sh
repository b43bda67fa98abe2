#!/usr/bin/env bash
# Random histories, with the times of commits rising, tied or against the order of their parents: `bases` answers what
# `git merge-base --all` lists, in the order of times, and `octopus` what the first of these gives along the commits, one
# after the other; also what `git merge-base --octopus` says, where none of these lists has a second base. A shallow commit has
# no parents for either.
set -uo pipefail
. "$(dirname -- "$(readlink -f -- "${BASH_SOURCE[0]}")")/lib.sh"

needs_git "no merge base is compared with Git"
needs python3 "no merge base is compared with Git"
build walk_probe
counts "the comparison of merge bases" python3 "$top/checks/bases.py" "$top/crates/walk_probe/out/walk_probe" "$scratch"

report
