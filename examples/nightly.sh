#!/usr/bin/env bash
# Makes a dump, and copies it to a backup with the description and the audit, while other commands wait.
#
# usage, in the folder of the database: nightly.sh DUMP LOCK BACKUP
# DUMP is a number that is free; LOCK is a file outside the folder that each command on the database waits for, as in
# flock LOCK dms run < SCRIPT ; BACKUP is a folder on another disk.
program=${DMS:-dms} dump=$1 backup=$3
exec {lock}>>"$2" && flock "$lock" || exit 1
echo "DUMP TO $dump" | "$program" utility || exit
cp F00001.DMS "$(printf 'F%05d.DMS' $((20000 + dump)))" "$backup" && "$(dirname "$0")"/copy_audit.sh "$backup"
