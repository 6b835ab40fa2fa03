#!/bin/sh
# After `rt ci`: the run program that it built goes to target/bin/, and the archive is made, target/staticlib/libjob.a.
#
# rt ci proves job_c and makes no archive. In a clean clone it leaves the libraries below as it proved them, and the
# archive is made over these: that proves job_c once more, and nothing below it, all of which `rt lib` would prove
# anew. Where checks had left libraries, rt ci has put these back, and rt lib takes them.
set -eu
cd "$(dirname "$0")/.."
mkdir -p target/bin target/staticlib
cp crates/tpal_run/out/tpal_run target/bin/tpal_run.new
mv -f target/bin/tpal_run.new target/bin/tpal_run

for stamp in crates/*/out/rlib/stamp; do
    if [ -f "$stamp" ]; then exec sh scripts/crate.sh job_c; fi
done

kit=$(dirname "$(rt doc)")
libraries=''
for crate in $(sed -n 's/#.*//; s/^job_c  *staticlib *: *//p' crates.txt); do
    libraries="$libraries --extern $crate=../$crate/out/rlib/$crate.rlib -L dependency=../$crate/out/rlib"
done
cd crates/job_c
# shellcheck disable=SC2086
"$kit/bin/rattle" build --crate-name job_c src/lib.rt --crate-type staticlib $libraries \
    --extern "std=$kit/rlibs/std.rlib" -L "dependency=$kit/rlibs" \
    --antt-project "$kit/rattle/logic/antt-project.json" --logic-built "$kit/logic_built" \
    --toolchain "$kit/toolchain" --backend llvm --jobs 2 -o out/libjob_c.a
cp out/libjob_c.a ../../target/staticlib/libjob.a.new
mv -f ../../target/staticlib/libjob.a.new ../../target/staticlib/libjob.a
rm -f ../../target/staticlib/libjob.a.made-of
