#!/usr/bin/env bash
# Gives the same scripts to the built program and to HSQLDB 2.7, and compares the answer to each entry: the rows and their
# order, the counts, what is refused, and who waits for whom, until when, and what it sees then.
#
# usage: checks/hsqldb.sh [SCRIPTS..]      (default: the files of checks/hsqldb)
#
# HSQLDB runs in memory, under LOCKS until a script sets another model, with a connection and a thread for each session, and
# gets each statement as a text. Where the two are known to differ the scripts say so, with both answers, and docs/SQL.md says
# why. So a difference that isn't listed fails, and a listed one that is none. A refusal's kind counts where both have one for it.
#
# It needs a JDK and Debian's package libhsqldb-java. The jar is looked for in the folder JARS (/usr/share/java if not set).
# Where one of these isn't there it says so and fails, but by checks/all it is left out.
# shellcheck source=checks/shared.sh
. "$(dirname "$(readlink -f "$0")")/shared.sh"
jar=${JARS:-/usr/share/java}/hsqldb.jar

# lacks WHAT: ends the check, as one that failed or as one that was left out.
lacks() {
    [ -n "${LEAVE_OUT:-}" ] || fail "$1"
    done_with "left out: $1"
    exit 0
}

command -v javac >/dev/null || lacks "javac is missing"
[ -e "$jar" ] || lacks "$jar isn't there, which Debian's package libhsqldb-java has"
scripts=()
for script in "$@"; do
    scripts+=("$(readlink -f "$script")")
done
if [ $# -eq 0 ]; then
    scripts=("$top"/checks/hsqldb/*.txt)
fi
program=$(readlink -f "$program")
cd "$work"
mkdir run

# The reasons are the first words of the rows of the document's table.
sed -n '/^## For people who come from HSQLDB/,/^## [^F]/p' "$top/docs/SQL.md" | sed -n 's/^| \([^|]*[^ |]\) *|.*/\1/p' | tail -n +2 >reasons
javac -d classes "$top"/checks/hsqldb/*.java
java "-Djava.io.tmpdir=$work" -Dhsqldb.reconfig_logging=false -cp "classes:$jar" Compare "$program" "$work/run" reasons "${scripts[@]}" >compared || {
    sed '$d' compared >&2
    fail "the answers aren't as the scripts say"
}
read -r passed count differences version < <(tail -n 1 compared)
done_with "answers to $count scripts as HSQLDB $version has them, but for $differences differences that are listed"
