#!/usr/bin/env bash
# Blocks of 2^28 bytes, of which a request may have 2^30 together. Rows have all other limits (rows/script-limits.rows).
set -uo pipefail
. "$(dirname -- "$(readlink -f -- "${BASH_SOURCE[0]}")")/lib.sh"

# `git hash-object` gives these ids to so many zero bytes, to one less, and to one.
full="( 268435456 bytes 89b65bcc7a1f3f68f45654de865cab3c4b649b71 )"
short="( 268435455 bytes 0b9e412b98c3ddcd0182381510545aa5f48e4260 )"

# block LINE SIZE: a line that declares a block of so many zero bytes, and the block.
block() {
    printf '%s\n' "$1"
    head -c "$2" /dev/zero
    echo
}

# head_of SIZE: a commit up to three files of 2^28 bytes, with a message of so many.
head_of() {
    printf 'commit HEAD\nauthor 0 0 \t\ncommitter 0 0 \t\n'
    block "message $1" "$1"
    block "put file 268435456 a" 268435456
    block "put exec 268435456 b" 268435456
    block "put link 268435456 c" 268435456
}

# One byte less than 2^30, then all of them, and then no more; and a commit that has
# them, declares no bytes, and then one byte more in line 30.
blocks() {
    head_of 268435455
    block "put file 1 d" 1
    block "put file 0 e" 0
    echo end
    head_of 268435456
    block "put file 0 d" 0
    block "put file 1 e" 1
    echo end
}

{
    printf 'commit HEAD author 0 0 "" "" committer 0 0 "" "" parents 0 message %s ' "$short"
    printf 'edits 5 file a %s exec b %s link c %s file d "\\0" file e ""\n' "$full" "$full" "$full"
    printf 'malformed 30\n'
} >"$scratch/wanted"
blocks | script_probe sha1 >"$scratch/found"
same "a request has blocks of 2^30 bytes, and not of one more" "$scratch/wanted" "$scratch/found"

report
