#!/usr/bin/env bash
# Each example is answered as its file says, and so is the command of the README.
set -uo pipefail
. "$(dirname -- "$(readlink -f -- "${BASH_SOURCE[0]}")")/lib.sh"

# The exit status that an example wants: that of NAME.status, or 0.
status_of() {
    local file=${1%.script}.status
    if [[ -f $file ]]; then
        cat -- "$file"
    else
        echo 0
    fi
}

apply() {
    "$top/gx" --memory apply <"$1"
}

for script in "$top"/examples/*.script; do
    name=$(basename -- "$script" .script)
    runs "examples/$name" "$(status_of "$script")" "${script%.script}.expected" apply "$script"
done

generated() {
    "$top/gx" --memory generate 2
}

runs "examples/generate" 0 "$top/examples/generate.expected" generated

# The command as the README has it, run at the top of the repository.
readme_command() {
    grep -m 1 -x -E '\./gx --memory apply < examples/[a-z-]+\.script' "$top/README.md"
}

if command=$(readme_command); then
    script=${command##* }
    in_top() {
        (cd -- "$top" && bash -c "$command")
    }
    runs "the README's command" "$(status_of "$top/$script")" "$top/${script%.script}.expected" in_top
else
    fails "the README has a command that applies an example"
fi

report
