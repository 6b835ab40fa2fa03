#!/bin/sh
# The benchmark's lines in machine instructions, which hang neither on the machine's load nor on where the code comes to lie: of the engine, and of the
# peer or the model beside it. `scripts/counts.sh BENCH [NAME..]`: BENCH is the benchmark's program; all lines where none is named. Each side of a line
# is run with one call and with more, under valgrind, and the difference is divided by the calls and by what the line is told for.
set -eu

[ $# -ge 1 ] || { echo "usage: counts.sh BENCH [NAME..]" >&2; exit 2; }
bench=$1
shift

# instructions NAME SIDE CALLS: all that a run with so many calls takes
instructions() {
    valgrind --tool=callgrind --callgrind-out-file=/dev/null "$bench" call "$1" "$2" "$3" 2>&1 | sed -n 's/.*Collected : //p'
}

# each NAME SIDE COUNT: what one call takes, divided by COUNT
each() {
    one=$(instructions "$1" "$2" 1)
    more=$(instructions "$1" "$2" 3)
    awk -v one="$one" -v more="$more" -v count="$3" 'BEGIN { printf "%.1f", (more - one) / 2 / count }'
}

"$bench" lines | while read -r name beside count what; do
    case " ${*:-$name} " in *" $name "*) ;; *) continue ;; esac
    echo "count $name engine $(each "$name" engine "$count") $beside $(each "$name" other "$count") for each $what"
done
