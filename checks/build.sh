# shellcheck shell=bash
# Builds the programs of this repository. A script that reads this file has set `top`.

say() {
    printf 'gx: %s\n' "$*" >&2
}

# Whether a file that the program is made of, or a folder of such files, changed after it was built. A folder changes
# when a file in it is made or removed.
is_stale() {
    local sources
    shopt -s nullglob
    sources=("$top/crates.txt" "$top"/crates/*/src "$top"/crates/*/specs "$top"/crates/*/proofs)
    shopt -u nullglob
    [[ ! -x $1 || -n $(find "${sources[@]}" -newer "$1" -print -quit) ]]
}

# build CRATE WORD..: proves and builds the crate's program, where it is absent or older than its sources. `rt run` also
# runs it once, so it gets words that are harmless.
build() {
    local scratch crate=$top/crates/$1 program=$top/crates/$1/out/$1
    is_stale "$program" || return 0
    command -v rt >/dev/null || {
        say "the program has to be built, and there is no command rt on the path (README.md, \"Run it\")"
        exit 127
    }
    scratch=$(mktemp -d)
    : >"$scratch/start"
    say "proving and building $1; at first this takes some minutes (what it does: $scratch/log)"
    if ! (cd -- "$crate" && rt run -- "${@:2}") </dev/null >>"$scratch/log" 2>&1; then
        tail -n 40 -- "$scratch/log" >&2
        say "the build failed; the whole log is $scratch/log"
        exit 127
    fi
    # rt leaves a program alone whose sources say what they said before; what changed during the build is still newer.
    touch -r "$scratch/start" -- "$program"
    rm -r -- "$scratch"
    say "built"
}
