#!/usr/bin/env bash
# Runs each input of examples/ on a new database, and looks whether it prints the output that stands beside it.
#
# usage: checks/examples.sh
#
# The outputs were worked out by hand. `first.sql` is also the input on which the gate runs the program.
# shellcheck source=checks/shared.sh
. "$(dirname "$(readlink -f "$0")")/shared.sh"
cd "$work"
for input in "$top"/examples/*.sql; do
    name=$(basename "$input" .sql)
    ended 0 "" "$program" "$name" <"$input" >output
    same "$(cat "$top/examples/$name.out")" "$(cat output)" "the output of $name"
    # The next run has all commits of this one.
    ended 0 "" "$program" "$name" </dev/null >again
    same "opened at $(tail -n 1 output | cut -d' ' -f3)" "$(head -n 1 again)" "how the next run of $name opens"
done
same "$(cat "$top/examples/first.sql" "$top/examples/first.out")" "$(cat "$top/crates/hsql/stdin" "$top/crates/hsql/stdout")" "the gate's input and output"
done_with "the inputs of examples/ with their outputs"
