#!/usr/bin/env bash
# What no contract speaks of: the words that `main` looks at, and what real streams do.
set -uo pipefail
. "$(dirname -- "$(readlink -f -- "${BASH_SOURCE[0]}")")/lib.sh"

nothing=$scratch/nothing
usage=$scratch/usage
no_repository=$scratch/no-repository
fault=$scratch/fault
first=$top/examples/first-commit
: >"$nothing"
echo "not a repository" >"$no_repository"
echo "store fault" >"$fault"
mkdir "$scratch/other"
: >"$scratch/other/file"

# Where the program has to be built, `gx` tells of it on standard error, which is looked at below.
"$top/gx" --version >/dev/null || exit 1

# with_input FILE WORD..: the program with these words reads the file. What it says on standard error is kept.
with_input() {
    local input=$1
    shift
    "$top/gx" "$@" <"$input" 2>"$scratch/said"
}

# with_rest WORD..: the program with these words reads a script; what it leaves of that is printed after its replies.
with_rest() {
    local status=0
    {
        "$top/gx" "$@" 2>"$scratch/said" || status=$?
        cat
    } <"$first.script"
    return "$status"
}

# says NAME WANTED: the last program said the bytes of the file WANTED on standard error.
says() {
    same "$1 says what it must" "$2" "$scratch/said"
}

# informs WORD: the word alone is answered on standard output.
informs() {
    local status=0
    with_input "$nothing" "$1" >"$scratch/printed" || status=$?
    if ((status == 0)) && [[ -s $scratch/printed ]]; then
        passes "$1 is answered"
    else
        fails "$1 ends with $status, or prints nothing"
    fi
    says "$1" "$nothing"
}

# explains WORD..: the usage has each of these words, with a space or an end of the line on both sides.
explains() {
    local word missing=
    for word; do
        grep -q -E -- "(^| )$word( |\$)" "$usage" || missing+=" $word"
    done
    if [[ -z $missing ]]; then
        passes "the usage has $*"
    else
        fails "the usage lacks$missing"
    fi
}

# rejects NAME STATUS WANTED WORD..: the words end with the status, and with the bytes of the file WANTED on standard
# error. Nothing is read, and nothing printed.
rejects() {
    local name=$1 status=$2 wanted=$3
    shift 3
    runs "$name" "$status" "$first.script" with_rest "$@"
    says "$name" "$wanted"
}

# applies NAME STATUS WANTED FILE: the script in the file is run, and standard error hears nothing.
applies() {
    runs "$1" "$2" "$3" with_input "$4" --memory apply
    says "$1" "$nothing"
}

# ends NAME STATUS COMMAND..: the command ends with the status, whatever it prints.
ends() {
    local name=$1 wanted=$2 status=0
    shift 2
    "$@" || status=$?
    if ((status == wanted)); then
        passes "$name ends with $wanted"
    else
        fails "$name ends with $status in place of $wanted"
    fi
}

informs --version
informs -h
informs --help
cp -- "$scratch/printed" "$usage"
explains --memory --memory-sha256 FOLDER sha256:FOLDER apply generate --help --version
explains status 0 1 2 3 4 5 6 7 8 9

rejects "no words" 6 "$usage"
rejects "a store alone" 6 "$usage" --memory
rejects "a store of SHA-256 alone" 6 "$usage" --memory-sha256
rejects "an unknown word" 6 "$usage" --memory forget
rejects "a word in other letters" 6 "$usage" --memory Apply
rejects "apply with a number" 6 "$usage" --memory apply 5
rejects "generate without a number" 6 "$usage" --memory generate
rejects "generate with two numbers" 6 "$usage" --memory generate 1 2
for number in "" 20001 4294967296 18446744073709551616 00 01 +1 -1 1.0 0x1 " 1" "1 " one; do
    rejects "generate '$number'" 6 "$usage" --memory generate "$number"
done
rejects "a folder with a number too many" 6 "$usage" "$scratch/absent" generate 20001
rejects "--help after a store" 6 "$usage" --memory --help
rejects "a word too many" 6 "$usage" --memory apply again
rejects "a word that is not UTF-8" 6 "$usage" $'\xff' apply
rejects "no store" 6 "$usage" apply
rejects "a folder alone" 6 "$usage" "$scratch/absent"
rejects "a folder with another word" 6 "$usage" "$scratch/absent" forget
rejects "a folder with other files" 9 "$no_repository" "$scratch/other" apply
rejects "a folder with other files, for SHA-256" 9 "$no_repository" "sha256:$scratch/other" apply
rejects "an unknown option for the store" 9 "$no_repository" --memroy apply
rejects "an empty word for the store" 9 "$no_repository" "" apply
rejects "an empty folder name" 9 "$no_repository" sha256: apply
rejects "a file for the folder" 7 "$fault" "$scratch/other/file" apply
rejects "a word after --help" 9 "$no_repository" --help apply
rejects "a word after -h" 9 "$no_repository" -h apply
rejects "a word after --version" 9 "$no_repository" --version apply

if [[ -e $scratch/absent || -n $(find "$scratch/other" -mindepth 1 ! -name file) ]]; then
    fails "a folder was made, or changed, for words that were refused"
else
    passes "no folder is made or changed for words that are refused"
fi

unheard() {
    "$top/gx" "$@" <"$first.script" 2>&-
}
runs "no words, with standard error closed," 6 "$nothing" unheard
runs "another folder, with standard error closed," 9 "$nothing" unheard "$scratch/other" apply

applies "the empty script" 0 "$nothing" "$nothing"
head -n 4 -- "$first.script" >"$scratch/cut"
applies "a script that is cut off" 2 "$nothing" "$scratch/cut"
{ cat -- "$first.script"; echo; } >"$scratch/after"
applies "an empty line after a request" 2 "$first.expected" "$scratch/after"

# A folder can be opened and not read.
applies "a source that fails" 3 "$nothing" "$scratch"
without_input() {
    "$top/gx" --memory apply <&-
}
runs "a closed standard input" 3 "$nothing" without_input

without_output() {
    with_input "$first.script" "$@" >&-
}
ends "a closed standard output" 4 without_output --memory apply
ends "--help, with standard output closed," 4 without_output --help
ends "--version, with standard output closed," 4 without_output --version

# The one reader of a pipe is closed before the program starts.
to_nobody() (
    mkfifo -- "$scratch/pipe"
    exec 3<>"$scratch/pipe" 4>"$scratch/pipe" 3>&-
    with_input "$first.script" --memory apply >&4
)
ends "a pipe that nobody reads" 4 to_nobody

if [[ -w /dev/full ]]; then
    to_full() {
        with_input "$first.script" "$@" >/dev/full
    }
    ends "a sink that fails" 4 to_full --memory apply
    ends "--help, to a sink that fails," 4 to_full --help
else
    skips "there is no /dev/full, so no write finds its device full"
fi

# A message of 2^28 bytes, the most that a block may have, and less memory than that.
large_message() {
    head -n 3 -- "$first.script"
    echo "message 268435456"
    head -c 268435456 /dev/zero
}
in_little_memory() (
    ulimit -v 200000
    large_message 2>/dev/null | "$top/gx" --memory apply
)
runs "a message without memory for it" 5 "$nothing" in_little_memory

report
