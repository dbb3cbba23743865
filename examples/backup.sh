#!/bin/sh
# Copies the data directory of a broker, also while the broker runs, and checks the copy.
#
#   examples/backup.sh DIR COPY
#
# COPY is made, or is an empty folder. It gets the highest snapshot and the journals from its number on: all that a start needs, with
# all that was acknowledged before this began. KBROKER is the program's path, if it isn't `kbroker`. The status is 0 where the copy
# is sound and on disk. COPY needs a disk of its own, so that it takes no room from the broker, and the check memory as for a start.
# To put it back, stop the broker, copy COPY to a new folder by `cp -r`, and start the broker there once by hand with `--fold`.
# A copy that was ended midway has no snapshot, and no broker starts on it: remove it.
#
# Why a copy of files that change is sound: the broker only ever appends to the journal with the highest number, so what is copied of
# it is a front of what it holds, and a start cuts its end as it does after a crash. The others and the snapshot have their last
# byte. The broker cuts and removes them only once a higher snapshot has its name: then this begins anew.
LC_ALL=C
export LC_ALL

fail() {
    printf 'backup.sh: %s\n' "$1" >&2
    exit "${2:-1}"
}

# The numbers of the files `KIND.NUMBER` in DIR: as the broker writes them, of at most 19 digits, of which the first is no 0.
numbers() {
    for file in "$dir/$1".*; do
        number=${file#"$dir/$1."}
        case $number in
        "" | 0* | *[!0-9]* | ????????????????????*) ;;
        *) printf '%s\n' "$number" ;;
        esac
    done
}

# What is copied, in this order: the journals from the highest snapshot's number on, the highest first, and that snapshot. Nothing
# where there is no snapshot.
row() {
    top=$(numbers snapshot | sort -rn | head -n 1)
    [ -n "$top" ] || return 0
    { numbers journal && printf '%s\n' "$top"; } | sort -rnu | sed "/^$top\$/q" | sed 's/^/journal./'
    printf 'snapshot.%s\n' "$top"
}

# Copies these files, and says why one couldn't be copied.
copy_all() {
    for name in "$@"; do
        cp "$dir/$name" "$copy/$name" 2>&1 || return
    done
}

# Whether all these files are still among those that would be copied.
are_there() {
    now=" $(row | tr '\n' ' ')"
    for name in "$@"; do
        case $now in
        *" $name "*) ;;
        *) return 1 ;;
        esac
    done
}

remove_all() {
    for name in "$@"; do
        rm -f "$copy/$name"
    done
}

[ $# -eq 2 ] || fail "usage: backup.sh DIR COPY" 2
dir=$1 copy=$2
case $dir in -*) dir=./$dir ;; esac
case $copy in -*) copy=./$copy ;; esac
command -v "${KBROKER:-kbroker}" >/dev/null || fail "${KBROKER:-kbroker}: no such program, so the copy couldn't be checked" 2
[ -d "$dir" ] || fail "$dir: no such folder" 2
if [ ! -r "$dir" ] || [ ! -x "$dir" ]; then
    fail "$dir: permission denied" 2
fi
if [ -e "$copy" ] || [ -L "$copy" ]; then
    [ -d "$copy" ] || fail "$copy: not a folder" 2
    held=$(ls -A "$copy") || exit 2
    [ -z "$held" ] || fail "$copy: not empty" 2
else
    mkdir "$copy" || exit 2
fi

tries=10
while :; do
    files=$(row)
    [ -n "$files" ] || fail "$dir: no snapshot, so there is nothing to copy yet"
    why=$(copy_all $files)
    failed=$?
    are_there $files && break
    remove_all $files
    tries=$((tries - 1))
    [ "$tries" -gt 0 ] || fail "$dir: while it was copied, a snapshot was taken each time; try again while clients write less"
done
if [ "$failed" -ne 0 ]; then
    remove_all $files
    fail "$why"
fi

sync -f "$copy" || fail "$copy: not known to be on disk; remove it, and try again"
"${KBROKER:-kbroker}" check "$copy"
status=$?
[ "$status" -eq 0 ] || fail "$copy: not known to be sound; remove it, look at $dir by kbroker check, and try again" "$status"
