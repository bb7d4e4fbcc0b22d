# What the commands share. A command sets `root` to the repository's folder and sources this file, which has messages, the
# lock and how other programs are run, and build.sh, the build of what users run.
# shellcheck shell=sh

# with a CDPATH `cd` prints where it went; the others would have cargo build elsewhere
unset CDPATH CARGO_TARGET_DIR CARGO_BUILD_TARGET_DIR CARGO_BUILD_TARGET

# what users run, apart from the folders out/ of the crates, which `rt ci` sets aside
build=${root?}/build
room=''
held=''
child=''

# Each argument is a line on standard error.
say() {
    printf 'acornsled: %s\n' "$@" >&2 || :
}

# What is wrong and what to do, each a line.
fail() {
    say "$@"
    exit 2
}

need() { # COMMAND WHAT-TO-DO..
    ! command -v "$1" > /dev/null 2>&1 || return 0
    missing=$1
    shift
    fail "there is no command '$missing' on the PATH." "$@"
}

# Ends what was started, which has a session of its own or, where it waits for the lock, is a process.
interrupted() {
    trap '' INT TERM HUP PIPE
    if [ -n "$child" ]; then
        kill -TERM "$child" 2> /dev/null || :
        kill -TERM "-$child" 2> /dev/null || :
        wait "$child" 2> /dev/null || :
    fi
    fail 'interrupted: what was being made is not used. Run the command again; what is proved by now stays proved.'
}

# Takes the lock, for two that run `rt` at once damage each other's proofs. It is on the repository's folder: that is there
# in every clone, can be opened by whoever may read it, and no crash leaves it locked. A command that runs under the lock of
# another takes none.
locked() {
    [ "${ACORNSLED_LOCKED:-}" != "$root" ] || return 0
    need flock 'It is part of util-linux.'
    exec 9< "$root/."
    held=yes
    if ! flock -n 9; then
        say 'waiting for another build or test in this repository to end'
        flock 9 &
        child=$!
        wait "$child" || fail 'this repository cannot be locked; some network disks know no locks.'
        child=''
    fi
    export ACORNSLED_LOCKED="$root"
}

# Gives the lock back where it was taken here, so that what runs next does not hold it.
unlocked() {
    [ -n "$held" ] || return 0
    exec 9<&-
    held=''
    unset ACORNSLED_LOCKED
}

# A folder of this command alone, under the lock, on the disk of what is to be replaced at once; it goes when the command
# ends. Those of commands that were killed go here.
make_room() {
    [ -z "$room" ] || return 0
    [ -z "$held" ] || rm -rf "$build"/room.*
    why=$(mkdir -p -- "$build/room.$$" 2>&1) || fail "nothing can be built here: $why" \
        'Have somebody who may write to this folder run ./key once; then everybody can run the commands.'
    room=$build/room.$$
}

clear_room() {
    [ -z "$room" ] || rm -rf "$room"
    room=''
}

# Runs a command in a folder and hands each line that it prints to a function; the status is the command's. It has a session
# of its own, by which an interrupt ends all that it has started, and no other way to this command's output.
each_line() { # FUNCTION FOLDER COMMAND..
    hear=$1
    folder=$2
    shift 2
    need setsid 'It is part of util-linux.'
    rm -f "$room/lines"
    mkfifo "$room/lines" || return 2
    (cd -- "$folder/" && exec setsid "$@") > "$room/lines" 2>&1 < /dev/null &
    child=$!
    while IFS= read -r line || [ -n "$line" ]; do
        "$hear" "$line"
    done < "$room/lines"
    ended=0
    wait "$child" 2> /dev/null || ended=$?
    # one that was killed may have left others running
    [ "$ended" -le 128 ] || kill -KILL "-$child" 2> /dev/null || :
    child=''
    return "$ended"
}

# shellcheck source=tools/build.sh
. "$root/tools/build.sh"

# last, so that a command's own traps hold until all of this is there
trap interrupted INT TERM HUP PIPE
trap clear_room EXIT
