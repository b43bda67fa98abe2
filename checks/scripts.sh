#!/usr/bin/env bash
# Each script of rows/scripts is answered as the files beside it say, over a store of its kind of ids; where it is malformed,
# script_probe tells in which line. The files are what make.py writes, whose ids Git's commands give.
set -uo pipefail
. "$(dirname -- "$(readlink -f -- "${BASH_SOURCE[0]}")")/lib.sh"

scripts=$top/rows/scripts

# apply KIND FILE: applies a script to a store of this kind of ids.
apply() {
    local store=--memory
    [[ $1 == sha1 ]] || store+=-$1
    "$top/gx" "$store" apply <"$2"
}

# tells KIND FILE: what is told last of a script.
tells() {
    script_probe "$1" <"$2" | tail -n 1
}

for script in "$scripts"/*.script; do
    place=${script%.script}
    name=${place##*/}
    kind=${name##*.}
    status=0
    [[ ! -f $place.status ]] || status=$(<"$place.status")
    runs "rows/scripts/$name" "$status" "$place.expected" apply "$kind" "$script"
    if [[ -f $place.wrong ]]; then
        tells "$kind" "$script" >"$scratch/told"
        same "rows/scripts/$name is told to be $(<"$place.wrong")" "$place.wrong" "$scratch/told"
    fi
done

if command -v git >/dev/null && command -v python3 >/dev/null; then
    mkdir -- "$scratch/scripts"
    python3 "$scripts/make.py" "$scratch/scripts"
    if diff -r -x make.py -x README.md -- "$scripts" "$scratch/scripts"; then
        passes "rows/scripts is what make.py writes, with Git's ids"
    else
        fails "rows/scripts is not what make.py writes"
    fi
else
    skips "git or python3 is not there, so the files of rows/scripts are not made anew"
fi

report
