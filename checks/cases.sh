#!/usr/bin/env bash
# Runs the inputs of crates/hs_top_cases through the built program, each on a new database, whole and byte by byte, and looks
# whether they print what stands there.
#
# usage: checks/cases.sh
# shellcheck source=checks/shared.sh
. "$(dirname "$(readlink -f "$0")")/shared.sh"
needs python3
mkdir "$work/databases"
told=$(python3 "$top/checks/cases.py" "$program" "$top/crates/hs_top_cases/stdout" "$work/databases") || fail "$told"
passed=$told
done_with "runs of the built program over the inputs of hs_top_cases, whole and byte by byte"
