# What the files of cases share. A file sources this with `root` set, and calls `ok` for each case that passes; the first that
# does not ends it. All is tried in a temporary folder.
# shellcheck shell=sh disable=SC2154 # a file sets `root`

# what ./test sets for its steps and a user has not
unset ACORNSLED_LOCKED CDPATH
work=$(mktemp -d)
# what a case has killed may still be writing
trap 'rm -rf "$work" 2> /dev/null || { sleep 2; rm -rf "$work"; }' EXIT
trap 'exit 1' INT TERM HUP
# for the user who may only read
chmod 755 "$work"

ok() { # CASE
    echo "ok: $1"
}

wrong() { # CASE WHAT-IT-WAS
    echo "FAILED: $1: $2"
    exit 1
}

# Runs a command in a folder, no longer than a minute, with what it writes in the files `out` and `err` and its status in
# `status`.
try() { # FOLDER COMMAND..
    folder=$1
    shift
    status=0
    (cd -- "$folder" && exec timeout 60 "$@") > "$work/out" 2> "$work/err" || status=$?
}

# The last command ended with this status, printed this text (as printf's %b has it) and nothing else, and said each of these
# words, as patterns of grep; without words it said nothing.
gave() { # CASE STATUS TEXT WORD..
    case_=$1
    printf '%b' "$3" > "$work/want"
    [ "$status" = "$2" ] || wrong "$case_" "status $status, not $2; it said: $(cat "$work/err")"
    cmp -s "$work/out" "$work/want" || wrong "$case_" "it printed '$(cat "$work/out")', not '$(cat "$work/want")'"
    shift 3
    [ $# -gt 0 ] || [ ! -s "$work/err" ] || wrong "$case_" "it said: $(cat "$work/err")"
    for word in "$@"; do
        grep -q -i -e "$word" "$work/err" || wrong "$case_" "it did not say '$word', but: $(cat "$work/err")"
    done
    ok "$case_"
}

# What it said beside its progress is short.
few_lines() { # CASE
    lines=$(grep -c -v -e ' proved (' -e ': proving ' -e ': building ' "$work/err" || :)
    [ "$lines" -le 6 ] || wrong "$1" "it said $lines lines: $(cat "$work/err")"
}

# A copy of the repository with what is built of it. That it is built is seen by its bytes, so that the copy is good as well.
copy() { # FOLDER
    mkdir -p "$1"
    (cd -- "$root/" && tar -c --exclude='crates/*/out' key mark install tools crates crates.txt include man rust/acornsled \
        rust/command rust/Cargo.toml rust/Cargo.lock build/bin build/lib build/stamp) | (cd -- "$1/" && tar -x)
}

# The same as `try`, by a user who may read the folder that is named first, and not write there. Root is let do all, so that
# it becomes nobody.
try_as_reader() { # CLOSED FOLDER COMMAND..
    closed=$1
    folder=$2
    shift 2
    [ "$(id -u)" != 0 ] || set -- setpriv --reuid=65534 --regid=65534 --clear-groups "$@"
    chmod -R a-w,a+rX "$closed"
    try "$folder" "$@"
    chmod -R u+w "$closed"
}

# Waits until a condition holds, some seconds at most.
until_() { # COMMAND..
    patience=200
    until "$@"; do
        patience=$((patience - 1))
        [ "$patience" -gt 0 ] || return 1
        sleep 0.1
    done
}
