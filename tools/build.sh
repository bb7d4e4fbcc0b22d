# The build of what users run: build/bin/acornsled, build/lib/libacornsled.a, and build/stamp, a number of all that these
# two are made of. Where it is the number of the sources, nothing is locked, written or built, so that any number of commands
# run at once, also those of users who may only read. Where the variable ACORNSLED_LENT names a folder, its libacornsled.a is
# taken and nothing is proved.
# shellcheck shell=sh disable=SC2154 # common.sh sets the rest

log=$build/log
fault=''
case ${ACORNSLED_LENT:-/} in
/*) ;;
*) ACORNSLED_LENT=$PWD/$ACORNSLED_LENT ;;
esac

# Lines of rt and cargo for the log. `fault` is the one that tells most: the first error, or else what rt said last.
heard_rt() {
    case $1 in
    *': error'* | 'fn '*': no'*) error=${error:-$1} ;;
    'rt: '*) fault=$1 ;;
    esac
    printf '%s\n' "$1" >> "$log" 2> /dev/null || :
}
heard_cargo() {
    case $1 in
    error*) fault=${fault:-$1} ;;
    esac
    printf '%s\n' "$1" >> "$log" 2> /dev/null || :
}

# A line of rt while it proves, with a word to the user on each crate that it comes to in this run.
heard_proof() {
    heard_rt "$1"
    case $1 in
    'rt: chose --jobs '*' for '*)
        begun=$((begun + 1))
        say "proving ${1##* }, $begun of $crates crates at most"
        ;;
    esac
}

# Ends a build in which a program failed.
stop() { # PROGRAM STATUS WHAT-TO-DO
    fault=$(printf '%.300s' "$fault")
    say "not built: $1 ended with status $2${fault:+, and said: $fault}"
    (printf '%4096d' 0 > "$room/probe") 2> /dev/null || fail "There is no room left to write in $build"
    fail "$3" "All that it said is in $log"
}

# Runs rt in a folder, with a mark that only a run which was cut off leaves behind.
run_rt() { # FUNCTION FOLDER WORDS..
    listener=$1
    where=$2
    shift 2
    need rt 'It comes with the Rattle toolchain, which proves the library.' \
        'A library that is built already is taken from the folder that the variable ACORNSLED_LENT names.'
    printf '' > "$build/proving" || return 2
    fault=''
    error=''
    ended=0
    each_line "$listener" "$where" rt "$@" || ended=$?
    fault=${error:-$fault}
    [ "$ended" -gt 128 ] || rm -f "$build/proving"
    return "$ended"
}

# How many crates the named one is, with all that it stands on.
count() { # CRATE
    awk -v wanted="$1" '
        { sub(/#.*/, "") }
        sub(/:/, " ") { name = $1; $1 = ""; floor[name] = $0 }
        END {
            n = split(wanted, names)
            for (i = 1; i <= n; i++) {
                if (!(names[i] in floor) || seen[names[i]]++) continue
                count++
                m = split(floor[names[i]], more, " ")
                for (k = 1; k <= m; k++) names[++n] = more[k]
            }
            print count + 0
        }' "$root/crates.txt"
}

# Proves a crate and all that it stands on, and builds it: a static library by `rt lib`, a program by `rt run`. What a run
# left that was cut off is tried first; if rt then fails all is proved from nothing, for rt may have been writing when it was
# cut off.
prove() { # COMMAND CRATE
    make_room
    [ -w "$root/crates/$2" ] || fail "nothing can be proved here: you may not write to $root/crates/$2"
    cut_off=''
    [ ! -e "$build/proving" ] || cut_off=yes
    crates=$(count "$2")
    say "proving what is not proved yet of $crates crates, and building $2"
    begun=0
    ended=0
    run_rt heard_proof "$root/crates/$2" "$1" || ended=$?
    if [ "$ended" -ne 0 ] && [ -n "$cut_off" ]; then
        say 'an earlier run was cut off, and what it left is of no use: proving all from nothing'
        rm -rf "$root"/crates/*/out
        begun=0
        ended=0
        run_rt heard_proof "$root/crates/$2" "$1" || ended=$?
    fi
    [ "$ended" -eq 0 ] || stop rt "$ended" "If it was proved before, remove the folders $root/crates/*/out and try again."
}

# Proves and builds programs, and puts them into build/programs.
programs() { # CRATE..
    for program; do
        prove run "$program"
        replace "$root/crates/$program/out/$program" "$build/programs/$program"
    done
}

# Runs cargo on the packages in rust/, over the library in build/lib.
run_cargo() { # WORDS..
    need cargo 'It comes with Rust, in which the command is written.'
    make_room
    fault=''
    advice='It needs no network; of other programs it needs a C compiler, to link.'
    case $root in
    *'
'*) advice='The path of this repository has a line end, with which cargo cannot link: move it.' ;;
    esac
    each_line heard_cargo "$root/rust" env ACORNSLED_LIB="$build/lib" cargo "$@" --target-dir target ||
        stop cargo $? "$advice"
}

# Puts a copy of a file in its place at once.
replace() { # FROM TO
    { mkdir -p -- "${2%/*}" && cp -- "$1" "$room/put" && mv -f -- "$room/put" "$2"; } || fail "not built: no $2"
}

# The same of what users run. A file that is right already keeps its time, so that cargo builds nothing again; else the stamp
# goes first, for it is of what was there.
put() { # FROM TO
    ! cmp -s -- "$1" "$2" || return 0
    rm -f "$build/stamp"
    replace "$1" "$2"
}

make_library() {
    if [ -n "${ACORNSLED_LENT:-}" ]; then
        put "$ACORNSLED_LENT/libacornsled.a" "$build/lib/libacornsled.a"
        return
    fi
    prove lib acornsled_c
    put "$root/crates/acornsled_c/out/libacornsled_c.a" "$build/lib/libacornsled.a"
}

make_command() {
    say 'building the command'
    # so that none but this run's is taken; cargo puts it back where it is up to date
    rm -f "$root/rust/target/release/acornsled"
    run_cargo build --quiet --offline --release -p acornsled-command
    # a full disk may leave half a program, or an empty one, which sh runs without a word
    [ -n "$("$root/rust/target/release/acornsled" --version 2> /dev/null)" ] ||
        fail 'not built: the command does not run.' "Remove $root/rust/target and try again."
    put "$root/rust/target/release/acornsled" "$build/bin/acornsled"
    chmod a+rx "$build/bin/acornsled"
}

# The sources of what is built, with more words for `find`.
sources() { # WORDS..
    (cd -- "$root/" && find crates crates.txt include rust/acornsled rust/command rust/Cargo.toml rust/Cargo.lock \
        -path 'crates/*/out' -prune -o -type f "$@")
}

# A number of all that build/ is made of: the names and bytes of the sources, and of the library where it is lent.
number() {
    (
        sources -exec sha256sum {} + 2> /dev/null | LC_ALL=C sort
        [ -z "${ACORNSLED_LENT:-}" ] || sha256sum < "$ACORNSLED_LENT/libacornsled.a"
    ) | sha256sum
}

fresh() {
    [ -x "$build/bin/acornsled" ] && [ -f "$build/lib/libacornsled.a" ] && [ -f "$build/stamp" ] &&
        [ "$(cat "$build/stamp")" = "$(number)" ]
}

# Makes both, under the lock. The stamp is of the sources as they were at the start and still are at the end.
make_all() {
    make_room
    { number > "$room/stamp" && printf '' > "$log"; } || fail "nothing can be built here: no room to write in $build"
    make_library
    make_command
    number | cmp -s - "$room/stamp" || {
        rm -f "$build/stamp"
        fail 'not built: the sources have changed meanwhile. Run the command again.'
    }
    mv -f "$room/stamp" "$build/stamp" || fail "not built: no $build/stamp"
    clear_room
}

# Sees to it that build/ is what the sources make.
built() {
    [ -z "${ACORNSLED_LENT:-}" ] || [ -f "$ACORNSLED_LENT/libacornsled.a" ] ||
        fail "there is no libacornsled.a in the folder that ACORNSLED_LENT names, $ACORNSLED_LENT"
    ! fresh || return 0
    unread=$(sources ! -readable -print 2> /dev/null | head -n 1)
    [ -z "$unread" ] || fail "you may not read $root/$unread, so that nothing tells whether what is built is up to date."
    locked
    fresh || make_all
}
