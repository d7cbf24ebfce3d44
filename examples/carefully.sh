#!/usr/bin/env bash
# Gives a script to `dms run` line by line, each behind the answer of the line before, and stops at the first answer that isn't DONE.
# What was done since the last quiet point is taken back then, and the status is 20.
#
# usage, in the folder of the database: carefully.sh < SCRIPT ; for scripts of one program, since a line that waits stops it too.
program=${DMS:-dms}
trap '' PIPE
coproc DB { exec "$program" run; }
pid=$DB_PID
exec {answers}<&"${DB[0]}" {lines}>&"${DB[1]}" {DB[0]}<&- {DB[1]}>&-
number=0 stopped=
while IFS= read -r line || [ -n "$line" ]; do
    number=$((number + 1)) answer=
    printf '%s\n' "$line" >&"$lines" 2>/dev/null || break
    # An empty line and a comment aren't answered.
    [[ ${line%%%*} =~ [^[:space:]] ]] || continue
    while IFS= read -r answer <&"$answers"; do
        printf '%s\n' "$answer"
        [[ $answer != "$number "* ]] || break
    done
    if [[ ! $answer =~ ^$number\ [^\ ]+\ DONE(\ |$) ]]; then
        stopped=yes
        break
    fi
done
exec {lines}>&-
cat <&"$answers"
wait "$pid"
status=$?
[ $status -ne 0 ] || [ -z "$stopped" ] || status=20
exit $status
