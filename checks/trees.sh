#!/usr/bin/env bash
# Random path maps, put path by path, have the roots and the paths that Git gives an index of the same lines: a path takes
# the place of what stands above it and below it in both. Both kinds of ids. GX_SEED is another first seed, or `random`.
set -uo pipefail
. "$(dirname -- "$(readlink -f -- "${BASH_SOURCE[0]}")")/lib.sh"

needs_git "no tree of its making is compared"
build gx_probe names
program=$top/crates/gx_probe/out/gx_probe
seed=${GX_SEED:-20261201}
[[ $seed != random ]] || seed=$RANDOM
maps=200

# lines SEED DIGITS: up to 40 leaves at paths of up to four names, with ids of so many digits. The names sort apart from
# their directories, and often stand above one another.
lines() {
    LC_ALL=C awk -v seed="$1" -v digits="$2" '
        function any(count) { return 1 + int(rand() * count) }
        function id(  text) {
            text = substr("123456789abcdef", any(15), 1)
            while (length(text) < digits) text = text substr("0123456789abcdef", any(16), 1)
            return text
        }
        BEGIN {
            srand(seed)
            names = split("a|a.b|a-|a0|aa|A|b|\303\251|a b|~", name, "|")
            modes = split("100644|100755|120000|160000", mode, "|")
            for (left = int(rand() * 40); left > 0; left--) {
                path = name[any(names)]
                for (deeper = int(rand() * 4); deeper > 0; deeper--) path = path "/" name[any(names)]
                printf "%s %s\t%s\n", mode[any(modes)], id(), path
            }
        }'
}

# trees HASH DIGITS: compares all maps, each with a heading that says its seed.
trees() {
    local at
    export GIT_DIR=$scratch/$1 GIT_INDEX_FILE=$scratch/index
    git init -q --bare --object-format="$1" "$GIT_DIR" || return
    for ((at = seed; at < seed + maps; at++)); do
        lines "$at" "$2" >"$scratch/lines"
        rm -f -- "$GIT_INDEX_FILE"
        {
            printf 'seed %s\n' "$at"
            git update-index --index-info <"$scratch/lines"
            git write-tree --missing-ok
            git -c core.quotePath=false ls-files --stage | sed $'s/ 0\t/\t/'
        } >&3
        {
            printf 'seed %s\n' "$at"
            "$program" root "$1" <"$scratch/lines"
            "$program" paths "$1" <"$scratch/lines"
        } >&4
    done 3>"$scratch/wanted" 4>"$scratch/found"
    same "$maps path maps ($1), seeds $seed to $((seed + maps - 1)), have Git's roots and paths" "$scratch/wanted" "$scratch/found"
}

trees sha1 40
trees sha256 64

report
