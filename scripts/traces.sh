#!/bin/sh
# Makes the stored traces of the examples anew, and the pictures of docs/:
#
#     scripts/traces.sh [FOLDER]
#
# A trace is named for the example's folder, and for its job where that is another one. With a folder
# the files go there.
set -eu
cd "$(dirname "$0")/.."
tpasm=rust/target/release/tpasm
traces=${1:-rust/trace/tests/data}
pictures=${1:-docs}

for out in examples/*/*.out; do
    folder=${out%/*}
    example=${folder##*/}
    job=$(basename "$out" .out)
    name=$example
    [ "$job" = "$example" ] || name=$example-$job
    options=''
    if [ -f "${out%.out}.args" ]; then options=$(cat "${out%.out}.args"); fi
    # shellcheck disable=SC2086
    "$tpasm" trace "$folder/$example.tpal" $options -o "$traces/$name.trace" 2>/dev/null
done
for example in f two-faults; do
    "$tpasm" picture "examples/$example/$example.tpal" -o "$pictures/$example.svg" 2>/dev/null
done
