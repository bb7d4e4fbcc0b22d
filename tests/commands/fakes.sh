# A small repository with the commands of this one, and programs `rt` and `cargo` in their place that prove and compile
# nothing. Each tells of a call in the file `calls`, and in `overlaps` where it runs while another does. A file `rt` or
# `cargo` in the folder `fails` makes them fail, in `waits` wait until it is gone, in `killed` be killed.
# shellcheck shell=sh disable=SC2154,SC2034 # common.sh sets `work`, and the cases use what is set here

unset ACORNSLED_LIB ACORNSLED_LENT
fake=$work/fake
mkdir -p "$fake/bin" "$fake/fails" "$fake/waits" "$fake/killed"
export FAKE="$fake"

# what both begin with
cat > "$fake/begin" << 'END'
echo "$me $*" >> "$FAKE/calls"
mkdir "$FAKE/busy" 2> /dev/null || echo "$me $*" >> "$FAKE/overlaps"
trap 'rmdir "$FAKE/busy" 2> /dev/null' EXIT
trap 'exit 143' TERM PIPE
sleep 0.3
while [ -e "$FAKE/waits/$me" ]; do sleep 0.1; done
if [ -e "$FAKE/killed/$me" ]; then
    rmdir "$FAKE/busy"
    kill -KILL $$
fi
if [ -e "$FAKE/fails/$me" ]; then
    for line in 1 2 3 4 5 6 7 8 9 10 11 12; do echo "something that is not a user's business, line $line"; done
    echo 'error: a thing is not as it should be'
    echo 'rt: FAILED: first'
    exit 1
fi
END
cat > "$fake/bin/rt" << 'END'
#!/bin/sh
me=rt
. "$FAKE/begin"
# what an earlier run left damaged, as long as it is there
if [ -e out/damaged ]; then
    echo 'rt: FAILED: second'
    exit 1
fi
mkdir -p out
for crate in first second acornsled_c; do echo "rt: chose --jobs 2 for $crate"; done
cat ../first/src/lib.rt > out/libacornsled_c.a
END
cat > "$fake/bin/cargo" << 'END'
#!/bin/sh
me=cargo
. "$FAKE/begin"
mkdir -p target/release
{
    echo '#!/bin/sh'
    echo "echo \"answer of $(cat "$ACORNSLED_LIB/libacornsled.a"): \$*\""
} > target/release/acornsled
chmod 755 target/release/acornsled
END
chmod 755 "$fake/bin/rt" "$fake/bin/cargo"

# a PATH with all that the commands use beside, and none of the real two
mkdir "$fake/plain"
for program in awk cat chmod cmp cp date env find flock grep head ls mkdir mkfifo mktemp mv readlink rm rmdir sed setsid sh \
    sha256sum sleep sort tail timeout touch wc; do
    ln -s "$(command -v "$program")" "$fake/plain/$program" 2> /dev/null || :
done
fakes=$fake/bin:$fake/plain

# The small repository, in a folder; nothing of it is built.
repository() { # FOLDER
    mkdir -p "$1/crates/first/src" "$1/crates/second/src" "$1/crates/acornsled_c" "$1/rust/acornsled" "$1/rust/command" \
        "$1/include" "$1/tests/commands"
    cp -R "$root/key" "$root/mark" "$root/test" "$root/.ci" "$root/tools" "$1"
    printf 'first:\nsecond: first\nacornsled_c staticlib: first second\n' > "$1/crates.txt"
    echo one > "$1/crates/first/src/lib.rt"
    echo two > "$1/crates/second/src/lib.rt"
    echo name > "$1/rust/Cargo.toml"
    echo lock > "$1/rust/Cargo.lock"
}

# Forgets what was called, and lets both programs work.
forget() {
    rm -rf "$fake/busy"
    rm -f "$fake/calls" "$fake/overlaps" "$fake"/fails/* "$fake"/waits/* "$fake"/killed/*
    : > "$fake/calls"
}

# how often rt was called with this word first, or cargo
calls() { # NAME WORD
    grep -c "^$1 $2" "$fake/calls" || :
}
