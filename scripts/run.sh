#!/bin/sh
# Assembles a program's text, runs it, and prints the result with the names that the text has for its
# registers:
#
#     scripts/run.sh [-l LANES] [-b BUDGET] TEXT [OPTIONS of `tpasm job`]
#
# Without a budget the run program runs it; with one c/run.c, which makes the same call. With lanes
# c/lanes.c runs it in rounds, of which the budget is then the number, and prints them too. The status
# says how it ended: 0 halt, 1 refused, 2 fault, 3 spent; 4 when nothing was run or printed.
set -u
root=$(dirname "$0")/..
assembler=$root/rust/target/release/tpasm

lanes=''
if [ "${1:-}" = -l ]; then
    lanes=${2:-}
    shift 2
fi
budget=''
if [ "${1:-}" = -b ]; then
    budget=${2:-}
    shift 2
fi
if [ $# -eq 0 ]; then
    echo 'usage: run.sh [-l LANES] [-b BUDGET] TEXT [OPTIONS of tpasm job]' >&2
    exit 4
fi
text=$1
shift
case $budget in
*[!0-9]*)
    echo "the budget is a number of picks, found '$budget'" >&2
    exit 4
    ;;
esac
case $lanes in
*[!0-9]*)
    echo "lanes are a number from 1 to 8, found '$lanes'" >&2
    exit 4
    ;;
esac

room=$(mktemp -d) || exit 4
trap 'rm -rf "$room"' EXIT
trap 'exit 4' HUP INT TERM

"$assembler" job "$text" "$@" -o "$room/job" || exit 4
if [ -n "$lanes" ]; then
    "$root/target/c/lanes" "$lanes" ${budget:+"$budget"} <"$room/job" >"$room/said" || exit 4
elif [ -n "$budget" ]; then
    "$root/target/c/run" "$budget" <"$room/job" >"$room/said" || exit 4
else
    "$root/target/bin/tpal_run" <"$room/job" >"$room/said" || exit 4
fi

# Lines 'r0 NAME'. An assembler without this command, or a text on standard input, has no names.
: >"$room/names"
if [ "$text" != - ]; then
    "$assembler" names "$text" >"$room/names" 2>/dev/null || : >"$room/names"
fi
awk '
    names { name[$1] = $2; next }
    { line[++count] = $0; if ($1 in name && length > width) width = length }
    END {
        for (i = 1; i <= count; i++) {
            split(line[i], word, " ")
            if (word[1] in name) printf "%-" width "s  %s\n", line[i], name[word[1]]
            else print line[i]
        }
    }' names=1 "$room/names" names= "$room/said" || exit 4

case $(head -n 1 "$room/said") in
'end halt') exit 0 ;;
'refused '*)
    echo 'status 1: refused; docs/numbers.md says what the number means' >&2
    exit 1
    ;;
'end fault '*)
    echo 'status 2: a fault; docs/numbers.md says what the number means, and make trace where it came up' >&2
    exit 2
    ;;
'end spent')
    echo 'status 3: spent; the job had not ended after this work (make run BUDGET=n allows n picks;' >&2
    echo "make trace OPTIONS='--summary --budget n' says where each task stands)" >&2
    exit 3
    ;;
*)
    echo 'status 4: the run program printed no result' >&2
    exit 4
    ;;
esac
