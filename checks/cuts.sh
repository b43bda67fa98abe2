#!/usr/bin/env bash
# Scripts of every form: cut at each byte, within each limit, and with each byte before, between and after. cuts.py says by
# its own count of lines what is wrong with each.
set -uo pipefail
. "$(dirname -- "$(readlink -f -- "${BASH_SOURCE[0]}")")/lib.sh"

needs python3 "no script is cut"
python3 "$top/checks/cuts.py" >"$scratch/wanted"
script_probe rows <"$scratch/wanted" >"$scratch/found"
same "$(wc -l <"$scratch/wanted") scripts that are cut, cut short or prolonged are told to be so" "$scratch/wanted" "$scratch/found"

report
