#!/usr/bin/env bash
# Brings the copy of the audit in a backup up to what the audit has now. It may be called at any time, while a run is at work, too.
#
# usage, in the folder of the database: copy_audit.sh BACKUP
# BACKUP is a folder on another disk. An audit file whose copy is full is left as it is. The newest is copied first: so no copy has
# blocks that come behind one that an older file's copy lacks.
backup=$1

# Whether the last gate of an audit file is open, so that nothing is written to it any more.
is_full() {
    local blocks
    read -r -a blocks < <(od -An -tu1 -j8 -N2 "$1")
    [ "$(od -An -tu1 -j$((511 + 256 * blocks[0] + blocks[1])) -N1 "$1" | tr -d ' ')" = 1 ]
}

# Where the next file was made meanwhile the newest copy may be full: then it is done again, with that file.
for _ in 1 2 3 4 5; do
    files=()
    for file in F1????.DMS; do
        [ ! -s "$file" ] || files=("$file" "${files[@]}")
    done
    [ ${#files[@]} -gt 0 ] || exit 1
    for file in "${files[@]}"; do
        { [ -e "$backup/$file" ] && is_full "$backup/$file"; } || cp "$file" "$backup/$file.new" || exit 1
    done
    for file in "$backup"/F1????.DMS.new; do
        [ ! -e "$file" ] || mv "$file" "${file%.new}" || exit 1
    done
    ! is_full "$backup/${files[0]}" || continue
    sync "$backup"/F*.DMS "$backup"
    exit
done
exit 1
