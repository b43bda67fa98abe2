#!/usr/bin/env bash
# Trees, commits and tags that Git's own commands make or take are read, and written again to the same bytes. Both kinds of ids.
set -uo pipefail
. "$(dirname -- "$(readlink -f -- "${BASH_SOURCE[0]}")")/lib.sh"

needs_git "no object of its making is read"
export GIT_AUTHOR_NAME='Zoë Example' GIT_AUTHOR_EMAIL=zoe@example.org GIT_AUTHOR_DATE='@1660797906 +0800'
export GIT_COMMITTER_NAME='Sam Example' GIT_COMMITTER_EMAIL=sam@example.org GIT_COMMITTER_DATE='@1700000000 -0330'

# again KIND HASH ID NAME: the object is the same when it is read and written again.
again() {
    git cat-file "$1" "$3" >"$scratch/wanted" || {
        fails "$4 ($2) was not made"
        return
    }
    probe "$1" "$2" <"$scratch/wanted" >"$scratch/found"
    same "$4 ($2)" "$scratch/wanted" "$scratch/found"
}

# An entry of each kind, and names that sort apart from their directories.
tree_of_all_kinds() {
    local blob sub
    blob=$(printf 'x\n' | git hash-object -w --stdin)
    sub=$(printf '100644 blob %s\tx\n' "$blob" | git mktree)
    {
        printf '100644 blob %s\ta.b\n' "$blob"
        printf '040000 tree %s\ta\n' "$sub"
        printf '100755 blob %s\trun me\n' "$blob"
        printf '120000 blob %s\tlink\n' "$blob"
        printf '160000 commit %s\tmodule\n' "$1"
    } | git mktree --missing
}

objects_of() {
    local tree root child merge
    export GIT_DIR=$scratch/$1
    git init -q --bare --object-format="$1" "$GIT_DIR" || return
    root=$(git commit-tree "$(git mktree </dev/null)" <<<'root')
    tree=$(tree_of_all_kinds "$root")
    child=$(git commit-tree "$tree" -p "$root" -m $'title\n\nbody\n  with spaces' </dev/null)
    merge=$(git -c i18n.commitEncoding=ISO-8859-1 commit-tree "$tree" -p "$child" -p "$root" <<<$'caf\xe9')
    again tree "$1" "$(git mktree </dev/null)" "the empty tree"
    again tree "$1" "$tree" "a tree with an entry of each kind"
    again commit "$1" "$root" "a commit without parents"
    again commit "$1" "$child" "a commit with a parent"
    again commit "$1" "$merge" "a merge with an encoding"
    again commit "$1" "$(signed "$merge")" "a commit with headers of several lines"
}

# The commit with two further headers, one of them of several lines.
signed() {
    git cat-file commit "$1" | sed '/^encoding /a gpgsig -----BEGIN PGP SIGNATURE-----\n \n abc\n -----END PGP SIGNATURE-----\nnote  two spaces' |
        git hash-object -t commit -w --stdin
}

# tag_with KIND ID: `git mktag` takes the tag of that object with the text on standard input as its message.
tag_with() {
    {
        printf 'object %s\ntype %s\ntag v1.0\ntagger Zoë Example <zoe@example.org> 1660797906 +0800\n\n' "$2" "$1"
        cat
    } | git mktag
}

pgp=$'-----BEGIN PGP SIGNATURE-----\n\nabc\n-----END PGP SIGNATURE-----\n'
ssh=$'-----BEGIN SSH SIGNATURE-----\nabc\n-----END SSH SIGNATURE-----\n'

tags_of() {
    local tree root tag
    export GIT_DIR=$scratch/$1
    tree=$(git mktree </dev/null)
    root=$(git commit-tree "$tree" <<<'root')
    tag=$(tag_with commit "$root" <<<$'title\n\nbody')
    again tag "$1" "$tag" "a tag of a commit"
    again tag "$1" "$(tag_with tag "$tag" <<<'of a tag')" "a tag of a tag"
    again tag "$1" "$(tag_with tree "$tree" </dev/null)" "a tag without a message"
    again tag "$1" "$(printf 'signed\n%s' "$pgp" | tag_with commit "$root")" "a tag with a signature of OpenPGP"
    again tag "$1" "$(printf 'signed\n%s%s' "$pgp" "$ssh" | tag_with commit "$root")" "a tag with two signatures"
}

objects_of sha1
objects_of sha256
tags_of sha1
tags_of sha256

report
