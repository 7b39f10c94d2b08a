#!/usr/bin/env bash
# Types what README's tour shows, as it stands there, and looks whether it prints what README says. The planted bug at its end
# is left out, as it takes a proof.
#
# usage: checks/tour.sh
# shellcheck source=checks/shared.sh
. "$(dirname "$(readlink -f "$0")")/shared.sh"
cd "$work"
mkdir bin
printf '#!/bin/sh\nexec "%s" "$@"\n' "$program" >bin/hsql
chmod +x bin/hsql
ln -s "$top/examples" examples

# The texts that the tour shows, each in a file of its own.
mkdir shown
awk '/^## Five minutes/ { within = 1; next } /^## / { within = 0 }
    within && /^    / { if (!before) number++; print substr($0, 5) >("shown/" number) }
    { before = within && /^    / }' "$top/README.md"

# typed TEXT WANTED: the commands of one text print another.
typed() {
    same "$(cat "shown/$2")" "$(bash "shown/$1" 2>&1)" "what text $1 of the tour prints"
}

typed 1 2
typed 3 4
head -1 shown/5 >killed
tail -n +2 shown/5 >behind
grep -q 'timeout -s KILL' killed || fail "the tour kills no run"
printed=$(bash killed 2>/dev/null || true)
same $'opened at 3\n1 b: ok 1 row committed 4' "$printed" "what the run that is killed prints"
for line in 'opened at 3' '1 b: ok 1 row committed 4'; do
    grep -qF "\`$line\`" "$top/README.md" || fail "README doesn't say $line"
done
same "$(cat shown/6)" "$(bash behind 2>&1)" "what the run behind it prints"
command=$(grep -o 'tr -c .* < demo\.log' "$top/README.md")
same "$(cat shown/7)" "$(bash -c "$command" | head -n "$(wc -l <shown/7)")" "what the log looks like"

done_with "README's tour prints what README says"
