#!/usr/bin/env bash
# The commits of the examples have the ids that Git's own commands give to the same files, authors and messages.
# The values are here once more, so that neither the scripts nor the program are asked what they are.
set -uo pipefail
. "$(dirname -- "$(readlink -f -- "${BASH_SOURCE[0]}")")/lib.sh"

needs_git "no id is compared with Git's"
export GIT_DIR=$scratch/git
git init -q --bare "$GIT_DIR" || exit 1

# entry NAME <BYTES: the line of a file for git mktree.
entry() {
    printf '100644 blob %s\t%s\n' "$(git hash-object -w --stdin)" "$1"
}

# The ids of commits in the replies that are ok.
ids_of() {
    "$top/gx" --memory apply <"$top/examples/$1.script" | sed -n -E 's/^ok ([0-9a-f]{40})$/\1/p'
}

# agrees EXAMPLE IDS: the example makes these commits alone, one id a line.
agrees() {
    printf '%s\n' "$2" >"$scratch/wanted"
    ids_of "$1" >"$scratch/found"
    same "examples/$1 makes the commits that Git makes" "$scratch/wanted" "$scratch/found"
}

first_commit() {
    local tree
    tree=$(printf 'hello world' | entry hello | git mktree)
    GIT_AUTHOR_NAME=A GIT_AUTHOR_EMAIL=a@x GIT_AUTHOR_DATE='@1 +0000' \
        GIT_COMMITTER_NAME=A GIT_COMMITTER_EMAIL=a@x GIT_COMMITTER_DATE='@1 +0000' \
        git commit-tree "$tree" <<<'c1'
}

# One file was put twice: the later bytes count. git mktree sorts the entries itself.
several_files() {
    local tree
    tree=$({
        printf 'last by name\n' | entry zebra.txt
        printf '# Example\n' | entry README.md
        printf 'second\n' | entry notes-2026_a.txt
        printf '' | entry empty
        printf 'end\n' | entry end.txt
    } | git mktree)
    GIT_AUTHOR_NAME='Zoë Example' GIT_AUTHOR_EMAIL=zoe@example.org GIT_AUTHOR_DATE='@1660797906 +0800' \
        GIT_COMMITTER_NAME='Sam Example' GIT_COMMITTER_EMAIL=sam@example.org GIT_COMMITTER_DATE='@1700000000 -0330' \
        git commit-tree "$tree" <<<$'Add several files\n\nThey are put out of order, and one of them twice.'
}

# put MODE PATH BYTES: the index has the bytes at the path, in the place of what can't stand beside it.
put() {
    git update-index --add --replace --cacheinfo "$1,$(printf '%s' "$3" | git hash-object -w --stdin),$2"
}

# module PATH: the index has a submodule at the path.
module() {
    git update-index --add --cacheinfo "160000,726c543971a2faccb38c8357e483c5aa1bd88228,$1"
}

# drop PATH: the index has nothing at the path.
drop() {
    printf '0 %040d\t%s\n' 0 "$1" | git update-index --index-info
}

# committed SECONDS TITLE PARENT..: the id of a commit of the index.
committed() {
    local date="@$1 +0100" title=$2 parent words=()
    shift 2
    for parent; do
        words+=(-p "$parent")
    done
    GIT_AUTHOR_NAME='Ann Example' GIT_AUTHOR_EMAIL=ann@example.org GIT_AUTHOR_DATE=$date \
        GIT_COMMITTER_NAME='Ann Example' GIT_COMMITTER_EMAIL=ann@example.org GIT_COMMITTER_DATE=$date \
        git commit-tree "${words[@]}" "$(git write-tree)" <<<"$title"
}

# Four commits, one a line.
history() {
    local begun guided named
    local -x GIT_INDEX_FILE=$scratch/index
    put 100644 README.md $'# Tool\n'
    put 100644 src/main.txt $'one\n'
    put 100755 src/run.sh $'#!/bin/sh\n'
    put 120000 latest 'src/main.txt'
    begun=$(committed 1700000000 'Begin')
    put 100644 docs/guide.txt $'Read me.\n'
    drop src/run.sh
    guided=$(committed 1700000100 'Add a guide' "$begun")
    git read-tree "$begun"
    put 100644 src/main.txt $'one\ntwo\n'
    module lib/part
    named=$(committed 1700000200 'Name a submodule' "$begun")
    git read-tree "$guided"
    put 100644 src/main.txt $'one\ntwo\n'
    module lib/part
    put 100644 docs $'A file now.\n'
    printf '%s\n' "$begun" "$guided" "$named" "$(committed 1700000300 'Merge topic' "$guided" "$named")"
}

# The first commit, and one on it without a change.
two_commits() {
    local first
    first=$(first_commit)
    printf '%s\n' "$first"
    GIT_AUTHOR_NAME=A GIT_AUTHOR_EMAIL=a@x GIT_AUTHOR_DATE='@1 +0000' \
        GIT_COMMITTER_NAME=A GIT_COMMITTER_EMAIL=a@x GIT_COMMITTER_DATE='@1 +0000' \
        git commit-tree -p "$first" "$first^{tree}" <<<'c4'
}

agrees first-commit "$(first_commit)"
agrees several-files "$(several_files)"
agrees history "$(history)"
agrees refusals "$(two_commits)"
agrees references "$(two_commits)"

report
