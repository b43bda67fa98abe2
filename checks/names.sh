#!/usr/bin/env bash
# What the library says of names, beside `git check-ref-format`, on a few hundred names made of telling parts. They differ
# on names without a slash alone: a full one has capital letters and underscores only, and Git takes none of them here.
set -uo pipefail
. "$(dirname -- "$(readlink -f -- "${BASH_SOURCE[0]}")")/lib.sh"

needs_git "no name is judged by it"

# Names of two or three parts, and each byte that no name may hold at three places.
names() {
    local -a parts=(a B_ é + . / @ '{' .lock .lockx HEAD refs/heads/)
    local -a bytes=('~' '^' ':' '?' '*' '[' "\\" ' ' $'\t' $'\x01' $'\x7f')
    local one two three byte
    for one in "${parts[@]}"; do
        for two in "${parts[@]}"; do
            for three in '' a / .lock; do
                printf '%s\n' "$one$two$three"
            done
        done
    done
    for byte in "${bytes[@]}"; do
        printf '%s\n' "$byte" "a/$byte" "refs/heads/${byte}b"
    done
    printf '\n'
}

# What Git says: `full` of a name with a slash that it takes, `partial` of one without, and `no`.
verdicts() {
    local name
    while IFS= read -r name; do
        if git check-ref-format "$name"; then
            printf 'full\n'
        elif git check-ref-format --allow-onelevel "$name"; then
            printf 'partial\n'
        else
            printf 'no\n'
        fi
    done
}

# A name without a slash that has capital letters and underscores only is a full one here.
expected() {
    paste "$1" "$2" | LC_ALL=C awk -F '\t' '
        $NF == "partial" { name = substr($0, 1, length($0) - 8); print (name ~ /^[A-Z_]+$/) ? "full" : "partial"; next }
        { print $NF }'
}

names >"$scratch/names"
verdicts <"$scratch/names" >"$scratch/git"
expected "$scratch/names" "$scratch/git" >"$scratch/wanted"
probe names <"$scratch/names" >"$scratch/found"
same "$(wc -l <"$scratch/names") names are judged as Git judges them" "$scratch/wanted" "$scratch/found"

report
