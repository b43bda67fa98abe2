#!/usr/bin/env bash
# Repositories in folders: what a run leaves there is what the next one finds, also after a kill.
set -uo pipefail
. "$(dirname -- "$(readlink -f -- "${BASH_SOURCE[0]}")")/lib.sh"

# Each example is answered over a new folder as it is over memory.
for script in "$top"/examples/*.script; do
    name=$(basename -- "$script" .script)
    status=0
    [[ -f $top/examples/$name.status ]] && status=$(<"$top/examples/$name.status")
    in_folder() {
        "$top/gx" "$scratch/$name" apply <"$script"
    }
    runs "$name in a folder" "$status" "$top/examples/$name.expected" in_folder
done

# A second run over the folder tells what the first one left, as one run over memory tells it.
commit=$top/examples/first-commit.script
questions() {
    printf 'refs\nlog refs/heads/main\n'
}

told_at_once() {
    { cat -- "$commit" && questions; } | "$top/gx" --memory apply
}

told_by_two_runs() {
    "$top/gx" "$scratch/twice" apply <"$commit" && questions | "$top/gx" "$scratch/twice" apply
}

told_at_once >"$scratch/at-once"
runs "a folder in a second run" 0 "$scratch/at-once" told_by_two_runs

needs_git "no repository is taken through a folder"
needs python3 "no repository is taken through a folder"
counts "repositories through folders" python3 "$top/checks/folder.py" "$top" "$scratch"
counts "folders that fail" python3 "$top/checks/folder_faults.py" "$top" "$scratch"

report
