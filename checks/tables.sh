#!/usr/bin/env bash
# Gives the statements of examples/queries.txt and examples/binding.txt to the built program, and compares its replies with the
# answers that stand there: the rows of queries and their faults, and over tables without rows what a statement is refused for,
# or what it does. Plans, which stand there too, can't be seen by replies.
#
# usage: checks/tables.sh
#
# The answers were worked out by hand. The stack is as large as the system allows, since some statements are 256 levels deep.
# shellcheck source=checks/shared.sh
. "$(dirname "$(readlink -f "$0")")/shared.sh"
needs python3
ulimit -S -s "$(ulimit -H -s)"
mkdir "$work/databases"
told=$(python3 -B "$top/checks/tables.py" "$program" "$work/databases" "$top/examples/queries.txt" "$top/examples/binding.txt") || fail "$told"
read -r passed left_out <<<"$told"
done_with "statements of the tables of examples/, but for $left_out that no input can hold"
