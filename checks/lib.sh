# shellcheck shell=bash disable=SC2034
# What the checks share. A file of checks reads this file, calls `passes`, `fails`, `same` and `skips`, and ends with `report`.

top=$(dirname -- "$(dirname -- "$(readlink -f -- "${BASH_SOURCE[0]}")")")
. "$top/checks/build.sh"
scratch=$(mktemp -d)
trap 'rm -rf -- "$scratch"' EXIT

passed=0
failed=0

passes() {
    passed=$((passed + 1))
    printf 'ok    %s\n' "$1"
}

fails() {
    failed=$((failed + 1))
    printf 'FAIL  %s\n' "$1"
}

skips() {
    printf 'skip  %s\n' "$1"
}

# same NAME WANTED FOUND: two files with the same bytes.
same() {
    if cmp -s -- "$2" "$3"; then
        passes "$1"
    else
        fails "$1"
        diff -u --label wanted --label found -- "$2" "$3" | sed 's/^/      /'
    fi
}

# runs NAME STATUS WANTED COMMAND..: the command ends with the status and prints the bytes of the file WANTED.
runs() {
    local name=$1 status=$2 wanted=$3 found=0
    shift 3
    "$@" >"$scratch/printed" || found=$?
    if ((found == status)); then
        passes "$name ends with $status"
    else
        fails "$name ends with $found in place of $status"
    fi
    same "$name prints what it must" "$wanted" "$scratch/printed"
}

# counts NAME COMMAND..: the command counts its checks by itself, and its last line is 'N passed, M failed'.
counts() {
    local name=$1
    shift
    "$@" | tee -- "$scratch/said"
    if [[ $(tail -n 1 -- "$scratch/said") =~ ^([0-9]+)\ passed,\ ([0-9]+)\ failed$ ]]; then
        passed=$((passed + BASH_REMATCH[1]))
        failed=$((failed + BASH_REMATCH[2]))
    else
        fails "$name came to its end"
    fi
}

# needs COMMAND WHAT: ends the file of checks where there is no such command, saying what is left out.
needs() {
    if ! command -v "$1" >/dev/null; then
        skips "$1 is not there, so $2"
        report
        exit
    fi
}

# needs_git WHAT: needs Git, and lets no settings of the machine or of its user count any more.
needs_git() {
    needs git "$1"
    export GIT_CONFIG_GLOBAL=/dev/null GIT_CONFIG_NOSYSTEM=1
    unset GIT_WORK_TREE GIT_INDEX_FILE GIT_OBJECT_DIRECTORY GIT_DEFAULT_HASH
}

# Runs the program that asks the libraries of formats.
probe() {
    build gx_probe names && "$top/crates/gx_probe/out/gx_probe" "$@"
}

# Runs the program that asks the libraries of stores.
store_probe() {
    build store_probe && "$top/crates/store_probe/out/store_probe"
}

# Runs the program that asks the library of walks.
walk_probe() {
    build walk_probe && "$top/crates/walk_probe/out/walk_probe"
}

# Runs the program that asks the library of scripts.
script_probe() {
    build script_probe && "$top/crates/script_probe/out/script_probe" "$@"
}

# Ends a file of checks. With a place to count in (checks/run gives one), the counts go there.
report() {
    if [[ -n ${CHECK_COUNTS:-} ]]; then
        printf '%s %s\n' "$passed" "$failed" >>"$CHECK_COUNTS"
    else
        printf '%s passed, %s failed\n' "$passed" "$failed"
    fi
    ((failed == 0))
}
