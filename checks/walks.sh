#!/usr/bin/env bash
# Random histories are walked as `git rev-list` lists them: newest first in the same order, also with a cutoff, along first
# parents alone and with shallow commits; breadth and oldest first the same commits. With hidden tips the walk lists what
# the tips reach and the hidden ones do not, each told by a run of Git of its own: Git ends its search for hidden commits
# by their times, and may list too many where these run backwards. Where times rise from parent to child, one run with
# `^` lists the same in the same order.
set -uo pipefail
. "$(dirname -- "$(readlink -f -- "${BASH_SOURCE[0]}")")/lib.sh"

needs_git "no walk is compared with Git"
needs python3 "no walk is compared with Git"
build walk_probe
counts "the comparison of walks" python3 "$top/checks/walks.py" "$top/crates/walk_probe/out/walk_probe" "$scratch"

report
