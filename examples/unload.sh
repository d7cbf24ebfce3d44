#!/usr/bin/env bash
# Prints the records of a data set, in the order of their numbers, as the lines of a script that stores them: in a new database of
# the same schema, or of another one that has these items.
#
# usage, in the folder of the database: unload.sh RDS D ['ITEM, ITEM ..'] > SCRIPT
# RDS is the restart data set, and D a data set that stands in no other one. Without items all of D is taken, which then must have
# no links. A run takes a million lines: so 490,000 records can be printed, and 199,999 of them are stored by one run.
# Status 20: a record, or one of the items, can't be had.
program=${DMS:-dms} restart=$1 set=$2 items=${3:-}
trap '' PIPE
coproc DB { exec "$program" run; }
pid=$DB_PID
exec {answers}<&"${DB[0]}" {lines}>&"${DB[1]}" {DB[0]}<&- {DB[1]}>&-

# Gives a line to the run, and takes its answer. Whether it is DONE.
ask() {
    answer=
    printf 'A: %s\n' "$1" >&"$lines" 2>/dev/null && IFS= read -r answer <&"$answers" && [[ $answer =~ ^[0-9]+\ A\ DONE(\ |$) ]]
}

ended=
if ask 'OPEN INQUIRY'; then
    echo 'A: OPEN UPDATE'
    while ask "FIND NEXT $set" || { [[ $answer == *' EXCEPTION NOTFOUND '* ]] && ended=yes && false; }; do
        ask "GET $set $items" || break
        put="A: PUT $set ${answer#* DONE }"
        # A line has at most 2,000 bytes.
        [ ${#put} -le 2000 ] || break
        printf 'A: BEGIN-TRANSACTION NO-AUDIT %s\nA: CREATE %s\n%s\nA: STORE %s\nA: END-TRANSACTION NO-AUDIT %s\n' \
            "$restart" "$set" "$put" "$set" "$restart"
    done
fi
exec {lines}>&-
cat <&"$answers" > /dev/null
wait "$pid"
status=$?
[ $status -ne 0 ] || [ -n "$ended" ] || status=20
exit $status
