#!/bin/sh
# Proves one crate, over those below it, and builds it:
#
#     scripts/crate.sh NAME
#
# rt builds those below first, where they have changed. What it says is printed, and no line `logic=proved` where
# nothing has changed. A program is then run on its file stdin, has to print its file stdout, and goes to
# target/bin/. A static library goes to target/staticlib/: of job_c, libjob.a.
set -eu
cd "$(dirname "$0")/.."
root=$PWD
name=$1
# The crates that its line of crates.txt names, where it is a static library.
below=$(sed -n "s/#.*//; s/^$name  *staticlib *: *//p" crates.txt)
cd "crates/$name"

# placed FILE PLACE: the copy takes the place of an older one in one step.
placed() {
    mkdir -p "${2%/*}"
    cp "$1" "$2.new"
    mv -f "$2.new" "$2"
}

# made_of: of all that an archive is made of, since rt makes one anew each time.
made_of() {
    rt version
    for crate in "$name" $below; do
        for part in src specs proofs; do
            if [ -d "../$crate/$part" ]; then find "../$crate/$part" -type f; fi
        done
    done | sort | xargs cksum ../../crates.txt | cksum
}

if [ -f src/main.rt ]; then
    mkdir -p out
    rt run <stdin >out/printed
    if ! cmp -s stdout out/printed; then
        echo "crates/$name: error: the program printed something else than its file stdout has"
        diff stdout out/printed || true
        exit 1
    fi
    placed "out/$name" "$root/target/bin/$name"
elif [ -n "$below" ]; then
    archive=$root/target/staticlib/lib${name%_c}.a
    if [ -f "$archive" ] && [ "$(made_of)" = "$(cat "$archive.made-of" 2>/dev/null)" ]; then exit 0; fi
    rm -f "$archive.made-of"
    rt lib
    placed "out/lib$name.a" "$archive"
    made_of >"$archive.made-of"
else
    rt lib
fi
