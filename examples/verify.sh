#!/usr/bin/env bash
# Rebuilds the database from a dump in a scratch folder, and walks structures there from the first member to the last. The
# database itself isn't changed, and while the files are copied no run begins.
#
# usage, in the folder of the database: verify.sh DUMP NAMES ..
# NAMES are structures that must have as many members, joined by `=`: a data set and its sets, as in ACCOUNT=ACCT-SET. Prints the
# point, and how many members each has. Status 20: they differ, or a member can't be had. The scratch folder is made in TMPDIR.
program=$(readlink -f "$(command -v "${DMS:-dms}")") dump=$1
shift
scratch=$(mktemp -d) || exit 1
trap 'rm -rf "$scratch"' EXIT
trap '' PIPE

# Walks one structure, and sets `count`. Whether its end was reached.
walk() {
    local answer= status ended= lines answers
    count=0
    coproc DB { exec "$program" run; }
    local pid=$DB_PID
    exec {answers}<&"${DB[0]}" {lines}>&"${DB[1]}" {DB[0]}<&- {DB[1]}>&-
    printf 'A: OPEN INQUIRY\n' >&"$lines" && IFS= read -r answer <&"$answers"
    while printf 'A: FIND NEXT %s\n' "$1" >&"$lines" 2>/dev/null && IFS= read -r answer <&"$answers"; do
        [[ $answer == *' DONE' ]] || break
        count=$((count + 1))
    done
    [[ $answer != *" EXCEPTION NOTFOUND "* ]] || ended=yes
    exec {lines}>&-
    cat <&"$answers" > /dev/null
    wait "$pid"
    status=$?
    exec {answers}<&-
    [ $status -eq 0 ] && [ -n "$ended" ]
}

flock -s . cp F00001.DMS F1????.DMS "$(printf 'F%05d.DMS' $((20000 + dump)))" "$scratch" || exit 1
cd "$scratch" || exit 1
echo "REBUILD FROM $dump" | "$program" utility || exit
status=0
for names; do
    first=
    for name in ${names//=/ }; do
        walk "$name" || status=20
        echo "$name $count"
        [ "${first:=$count}" = "$count" ] || status=20
    done
done
exit $status
