#!/usr/bin/env bash
# Random mailmaps are resolved as `git check-mailmap` resolves them, and random dates are the moments that `git commit-tree`
# writes for them. A number after the file's name is another seed.
set -uo pipefail
. "$(dirname -- "$(readlink -f -- "${BASH_SOURCE[0]}")")/lib.sh"

needs_git "no mailmap and no date is compared with it"
needs python3 "no mailmap and no date is made"

# agrees WHAT FILE: the rows of the file are answered as Git answers them.
agrees() {
    probe rows <"$2" >"$scratch/found"
    same "$(wc -l <"$2") $1" "$2" "$scratch/found"
}

if python3 "$top/checks/mailmaps.py" "$scratch" "$@"; then
    agrees "identities are resolved as Git resolves them" "$scratch/mailmaps.rows"
    agrees "dates are the moments that Git writes" "$scratch/dates.rows"
else
    fails "the mailmaps and dates are made"
fi

report
