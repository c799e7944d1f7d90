#!/bin/sh
# Copies a store that no program has open, or puts a copy back in its place.
#
#   backup.sh STORE COPY              COPY mustn't be there yet
#   backup.sh --restore COPY STORE    STORE and its log mustn't be there any more: move them away first
#
# End the server before, and start it again after. CARMUGUUR names the program, if it isn't `carmuguur`.
set -u
umask 077
program=${CARMUGUUR:-carmuguur}

fail() {
    printf 'backup.sh: %s\n' "$*" >&2
    exit 1
}

# Opens a store and closes it, which takes its log into the file: 41 bytes stay of the log. It fails if another program has the
# store open, or if the file is no sound store.
settle() {
    "$program" "$1" 0 answer < /dev/null || fail "$1 can't be opened"
    [ "$(wc -c < "$1-wal")" -le 41 ] || fail "the log of $1 couldn't be taken into the file"
}

# Copies a file to a name that isn't there yet. The copy has the name only once it is whole, sound and on the disk.
copy() {
    [ -f "$1" ] || fail "there is no file $1"
    for name in "$2" "$2-wal" "$2.part"; do
        [ ! -e "$name" ] || fail "$name is there already"
    done
    cp "$1" "$2.part" || fail "$1 can't be copied"
    settle "$2.part"
    rm -f "$2.part-wal"
    sync "$2.part" || fail "$2.part can't be synced"
    mv "$2.part" "$2" || fail "$2.part can't be renamed"
}

case $#:${1-} in
    3:--restore) copy "$2" "$3" ;;
    2:*)
        [ -f "$1" ] || fail "there is no file $1"
        settle "$1"
        copy "$1" "$2"
        ;;
    *) fail 'the words are STORE COPY, or --restore COPY STORE' ;;
esac
