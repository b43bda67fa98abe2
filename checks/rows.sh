#!/usr/bin/env bash
# Each row of rows/, or of the files that are named, is answered as it expects. A file of rows says where its values come
# from; src/rows.rt of probe_rows says how a row is written. Each row counts as one check.
set -uo pipefail
. "$(dirname -- "$(readlink -f -- "${BASH_SOURCE[0]}")")/lib.sh"

# answer FILE: prints the rows of the file, with what the program of its subject answers.
answer() {
    case ${1##*/} in
    chains.rows | directories.rows | editors.rows | edits.rows | logs.rows | objects.rows | path_maps.rows | \
        references.rows | runs.rows | store.rows | tree_editors.rows | writes.rows)
        store_probe <"$1"
        ;;
    bases.rows | describe.rows | maps.rows | traversals.rows | walks.rows)
        walk_probe <"$1"
        ;;
    script-*)
        script_probe rows <"$1"
        ;;
    *)
        probe rows <"$1"
        ;;
    esac
}

# compare FILE FOUND: prints the number of rows that are as expected, and of those that are not, and then the first of these.
compare() {
    LC_ALL=C awk -v file="${1#"$top"/}" '
        FILENAME == ARGV[1] { found[++lines] = $0; next }
        /^[^#]/ && !/^  / { rows++ }
        $0 != found[FNR] && bad++ == 0 { first = file ":" FNR "\n      wanted  " $0 "\n      found   " found[FNR] }
        END {
            if (lines > FNR && bad++ == 0) first = file ":" FNR "\n      wanted  the end\n      found   " found[FNR + 1]
            if (bad > rows) bad = rows
            print rows - bad, bad + 0
            if (bad) print first
        }' "$2" "$1"
}

files=("$@")
((${#files[@]} > 0)) || files=("$top"/rows/*.rows)
for file in "${files[@]}"; do
    if ! answer "$file" >"$scratch/found"; then
        fails "${file#"$top"/} was not read to its end"
        continue
    fi
    compare "$file" "$scratch/found" >"$scratch/compared"
    read -r good bad <"$scratch/compared"
    passed=$((passed + good))
    failed=$((failed + bad))
    if ((bad == 0)); then
        printf 'ok    %s rows of %s\n' "$good" "${file#"$top"/}"
    else
        printf 'FAIL  %s of %s rows of %s, the first at ' "$bad" "$((good + bad))" "${file#"$top"/}"
        tail -n +2 -- "$scratch/compared"
    fi
done

report
