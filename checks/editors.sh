#!/usr/bin/env bash
# Random edits make the same trees through an editor that writes now and then, through the plain writer of path maps, and
# by the rules as editors.py works them out. Both kinds of ids. GX_SEED is another first seed, or `random`.
set -uo pipefail
. "$(dirname -- "$(readlink -f -- "${BASH_SOURCE[0]}")")/lib.sh"

needs python3 "no editor is compared"
build store_probe
seed=${GX_SEED:-20261202}
[[ $seed != random ]] || seed=$RANDOM
lists=300

python3 "$top/checks/editors.py" "$seed" "$lists" "$scratch/editors.rows" "$scratch/edits.rows"
for rows in editors edits; do
    store_probe <"$scratch/$rows.rows" >"$scratch/found"
    same "$lists lists of edits for both kinds of ids ($rows), seeds from $seed, make the trees that they must" \
        "$scratch/$rows.rows" "$scratch/found"
done

report
