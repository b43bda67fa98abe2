#!/usr/bin/env bash
# Commits of random histories are described as Git's own lists say: the candidates are the first named commits of
# `git rev-list`, and the depth is the number of commits that the tip reaches and a candidate does not, each told by a run
# of `git rev-list`; also along first parents and with shallow commits. `git describe` says the same where its rule is ours:
# where times rise from parent to child, so that its depths are whole, and where it does not give up on a candidate.
set -uo pipefail
. "$(dirname -- "$(readlink -f -- "${BASH_SOURCE[0]}")")/lib.sh"

needs_git "no description is compared with Git"
needs python3 "no description is compared with Git"
build walk_probe
counts "the comparison of descriptions" python3 "$top/checks/describe.py" "$top/crates/walk_probe/out/walk_probe" "$scratch"

report
