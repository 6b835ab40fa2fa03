#!/bin/sh
# Compiles the C test and the dispatcher against libtpal.a, once plainly and once with the sanitizers
# around the calls, and runs them: the dispatcher on every job of examples/, whose output stands beside
# it, and on jobs that are refused or spent. Then header against exports, the installation, and
# `make run`. The last line is the total, 'N passed, M failed'.
#
# Uses target/staticlib/libjob.a and target/bin/tpal_run as they are, and proves nothing.
set -eu
cd "$(dirname "$0")/.."
mkdir -p target/c
unset MAKEFLAGS MFLAGS MAKELEVEL

assembler=rust/target/release/tpasm
library=target/lib/libtpal.a
seeds='1 2 3 4 5 6 7 18446744073709551615'
passed=0
failed=0

# build NAME ARGUMENT..: sources and flags
build() {
    program=target/c/$1
    shift
    gcc -std=c11 -Wall -Wextra -Wconversion -Werror "$@" "$library" -o "$program"
}

# counted NAME COMMAND..: a part whose last line is its total. One that ends without a total, or badly
# after a good one, has failed.
counted() {
    log=target/c/$1.log
    shift
    status=0
    "$@" >"$log" 2>&1 || status=$?
    cat "$log"
    total=$(sed -n '$s/^\([0-9]*\) passed, \([0-9]*\) failed$/\1 \2/p' "$log")
    set -- ${total:-0 1}
    passed=$((passed + $1))
    failed=$((failed + $2))
    if [ "$status" -ne 0 ] && [ "$2" -eq 0 ]; then failed=$((failed + 1)); fi
}

# run NAME FLAGS..
run() {
    build "$@" c/caller.c c/f.c c/helpers.c c/images.c c/programs.c c/replays.c c/runs.c c/stacks.c \
        c/steps.c
    counted "$1" "$program"
}

# dispatched NAME JOB EXPECTED ARGUMENT..: what $program prints for a job is the file's text.
dispatched() {
    name=$1 job=$2 expected=$3
    shift 3
    if "$program" "$@" <"$job" >target/c/out 2>target/c/complaint && cmp -s target/c/out "$expected"
    then
        passed=$((passed + 1))
        echo "ok      dispatcher $* on $name"
    else
        failed=$((failed + 1))
        echo "FAILED  dispatcher $* on $name"
        cat target/c/out target/c/complaint
    fi
}

# says NAME JOB TEXT ARGUMENT..: the same for a text of one line or two.
says() {
    name=$1 job=$2 text=$3
    shift 3
    printf "$text" >target/c/expected
    dispatched "$name" "$job" target/c/expected "$@"
}

# damaged NAME OFFSET BYTE NUMBER: F's job with one byte, in octal, changed.
damaged() {
    cp target/c/f.job target/c/damaged.job
    printf "\\$3" | dd of=target/c/damaged.job bs=1 seek="$2" conv=notrunc 2>/dev/null
    says "F with $1" target/c/damaged.job "refused $4\n" 1
}

# zeros COUNT
zeros() {
    head -c "$1" /dev/zero
}

# Jobs that are refused, one for each number that the run program has. F's image begins at 2; places,
# interval and word count stand at 158, 159 and 289.
try_refused() {
    says 'no bytes' /dev/null 'refused 10\n' 1
    head -c 290 target/c/f.job >target/c/short.job
    says 'F less a byte' target/c/short.job 'refused 10\n' 1
    { cat target/c/f.job; zeros 1; } >target/c/long.job
    says 'F and a byte' target/c/long.job 'refused 10\n' 1
    zeros 600000 >target/c/long.job
    says '600,000 bytes' target/c/long.job 'refused 10\n' 1
    { printf '\007'; zeros 141; } >target/c/short.job
    says 'an image of 7 bytes' target/c/short.job 'refused 1\n' 1
    damaged 'mark TPC' 4 103 2
    damaged 'version 0' 5 000 3
    damaged 'version 3' 5 003 3
    damaged "version 2, which it is too short for" 5 002 5
    damaged '0 blocks' 7 000 4
    damaged '3 blocks' 7 003 5
    damaged 'block 0 at 1' 10 001 6
    damaged 'annotation 3' 32 003 7
    damaged 'opcode 0' 50 000 8
    damaged 'block 1 at 3' 20 003 9
    damaged 'P 3' 158 003 11
    damaged 'interval 7' 159 007 12
    { head -c 289 target/c/f.job; printf '\001\020'; zeros 32776; } >target/c/long.job
    says '4,097 words' target/c/long.job 'refused 14\n' 1
}

# F has work 9.
try_budgets() {
    for budget in 0 1 5 8; do
        says 'F' target/c/f.job "end spent\nwork $budget\n" 1 "$budget"
    done
    for budget in 9 10 18446744073709551615; do
        dispatched 'F' target/c/f.job examples/f/f.out 1 "$budget"
    done
}

# dispatch NAME FLAGS..: the jobs of examples/ are made as their README says.
dispatch() {
    build "$@" c/dispatcher.c
    for out in examples/*/*.out; do
        folder=${out%/*}
        arguments=
        if [ -f "${out%.out}.args" ]; then arguments=$(cat "${out%.out}.args"); fi
        "$assembler" job "$folder/${folder##*/}.tpal" $arguments -o target/c/example.job
        for seed in $seeds; do
            dispatched "${out%.out}" target/c/example.job "$out" "$seed"
        done
    done
    "$assembler" job examples/f/f.tpal -o target/c/f.job
    try_refused
    try_budgets
}

if [ ! -f target/staticlib/libjob.a ]; then
    echo 'target/staticlib/libjob.a is missing: run make'
    echo '0 passed, 1 failed'
    exit 1
fi
sh scripts/tools.sh gcc make
make -s -o target/bin/tpal_run -o target/staticlib/libjob.a lib "$assembler"

sanitized='-O1 -g -fsanitize=address,undefined -fno-sanitize-recover=all'
run caller -O2
run caller_sanitized $sanitized
dispatch dispatcher -O2
dispatch dispatcher_sanitized $sanitized
counted exports sh c/exports.sh
counted install sh c/install.sh
counted scripts sh scripts/test.sh

echo "$passed passed, $failed failed"
[ "$failed" -eq 0 ]
