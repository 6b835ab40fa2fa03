#!/bin/sh
# Proves a crate and all that it needs, in the order of crates.txt, or makes the archive for C:
#
#     scripts/prove.sh NAME
#     scripts/prove.sh --archive
#
# Without a name all crates are proved. A line for each says which of how many it is and then how long it took. What
# the prover says goes to target/log/prove-CRATE.log. A crate that has not changed is not proved again. The archive is
# that of job_c, over the crates that are proved by then.
set -u
cd "$(dirname "$0")/.." || exit 1

if ! command -v rt >/dev/null; then
    echo 'rt, the Rattle toolchain, is not on the path, and only it can prove and build the engine.' >&2
    exit 1
fi

# logged CRATE: proves and builds it. On a no, the last of what rt said.
logged() {
    log=target/log/prove-$1.log
    began=$(date +%s)
    mkdir -p target/log
    sh scripts/crate.sh "$1" >"$log" 2>&1
    status=$?
    took=$(($(date +%s) - began))
    if [ "$status" -ne 0 ]; then
        echo "failed after $took s"
        tail -n 20 "$log" >&2
        echo "the check of $1 ended with status $status; all that it said is in $log" >&2
        exit 1
    fi
    if grep -q '^logic=proved' "$log"; then echo "$took s"; else echo unchanged; fi
}

# The crate and what it needs, or all: crates.txt has the lowest first.
needed() {
    awk -v wanted="$1" '
        { sub(/#.*/, ""); colon = index($0, ":") }
        colon {
            split(substr($0, 1, colon - 1), word, " ")
            names[++count] = word[1]
            needs[count] = substr($0, colon + 1)
        }
        END {
            need[wanted]
            for (i = count; i > 0; i--)
                if (wanted == "" || names[i] in need) {
                    need[names[i]]
                    words = split(needs[i], word, " ")
                    for (k = 1; k <= words; k++) need[word[k]]
                }
            for (i = 1; i <= count; i++) if (names[i] in need) print names[i]
        }' crates.txt
}

if [ "${1:-}" = --archive ]; then
    printf 'archive of job_c .. '
    logged job_c
    exit 0
fi

crates=$(needed "${1:-}")
# shellcheck disable=SC2086
set -- $crates
at=0
for crate; do
    at=$((at + 1))
    printf 'proving %2d of %d: %s .. ' "$at" $# "$crate"
    logged "$crate"
done
