#!/bin/sh
# Holds the header to the engine: each `pub extern "C" fn` of crates/job_c/src/lib.rt is declared with the
# same types, a slice as a pointer and a length; header, archive and shared library have these names and
# no other. Each has the contract of job's function of its name, word for word, its answer as a number. Then damaged copies of header
# and source, which have to be found out. The examples of docs/api.md compile, and docs/numbers.md has the
# header's names. The last line is the total.
set -eu
cd "$(dirname "$0")/.."
. c/counting.sh
room=$(mktemp -d)
trap 'rm -rf "$room"' EXIT

header=c/tpal.h
source=crates/job_c/src/lib.rt
library=crates/job/src/lib.rt
static=target/lib/libtpal.a
shared=target/lib/libtpal.so

# The exports of a source, one to a line: NAME, and its declaration in C.
exports() {
    awk '
        function type(rattle) {
            if (rattle == "&[u8]") return "const uint8_t *, size_t"
            if (rattle == "&mut [u8]") return "uint8_t *, size_t"
            if (rattle ~ /^[ui](8|16|32|64)$/)
                return (rattle ~ /^u/ ? "uint" : "int") substr(rattle, 2) "_t"
            if (rattle == "usize") return "size_t"
            return "no type in C for " rattle
        }
        /^pub extern "C" fn / { item = ""; reading = 1 }
        reading { item = item " " $0 }
        reading && /\)/ {
            reading = 0
            sub(/^.* fn /, "", item)
            name = substr(item, 1, index(item, "(") - 1)
            parameters = substr(item, index(item, "(") + 1)
            result = substr(parameters, index(parameters, ")") + 1)
            parameters = substr(parameters, 1, index(parameters, ")") - 1)
            count = split(parameters, parameter, ",")
            types = ""
            for (i = 1; i <= count; i++) {
                sub(/^[^:]*:? */, "", parameter[i])
                sub(/[ \t]*$/, "", parameter[i])
                if (parameter[i] != "") types = types (types == "" ? "" : ", ") type(parameter[i])
            }
            if (sub(/^ *-> */, "", result)) { sub(/[^a-z0-9].*/, "", result); result = type(result) }
            else result = "void"
            print name, result, name "(" (types == "" ? "void" : types) ");"
        }' "$1"
}

# The functions that a header declares. Those that it defines itself are no exports.
declared() {
    gcc -fpreprocessed -E -P -x c "$1" | sed '/^[[:space:]]*#/d' >"$room/plain"
    sed -n 's/^static inline .*[ *]\(tpal_[a-z0-9_]*\)(.*/\1/p' "$room/plain" | sort >"$room/own"
    grep -o '\<tpal_[a-z0-9_]* *(' "$room/plain" | tr -d ' (' | sort -u | comm -23 - "$room/own"
}

# The functions that a library has, those outside the engine's name space included.
defined() {
    nm --defined-only -P "$@" | awk '$2 == "T" || $2 == "W" { sub(/@.*/, "", $1); print $1 }' | sort
}

# contracts SOURCE: each `tpal_` function that it offers, from its name to its body.
contracts() {
    awk '
        sub(/^pub (extern "C" )?fn tpal_/, "tpal_") { reading = 1 }
        /^\{/ && reading { reading = 0; print "" }
        reading { print }' "$1"
}

# in_numbers: an answer that is a Result or an Option as the number that C gets; that None is told from a length is job's alone to say.
in_numbers() {
    sed -e 's/ -> Result<(), Refusal>$/ -> u8/' -e 's/ -> Option<usize>$/ -> u64/' -e '/^    ensures none {/d' \
        -e 's/(no_of result)/result/g' -e 's/no_of result/result/g' -e 's/unwrap_or result 0/result/g'
}

# same_contracts SOURCE LIBRARY
same_contracts() {
    contracts "$1" >"$room/exported"
    contracts "$2" | in_numbers >"$room/offered"
    test -s "$room/exported" && diff "$room/exported" "$room/offered"
}

# agree HEADER SOURCE
agree() {
    exports "$2" >"$room/exports"
    cut -d' ' -f1 "$room/exports" | sort >"$room/names"
    [ -s "$room/names" ] || return 1
    declared "$1" >"$room/declared"
    diff "$room/names" "$room/declared" || return 1
    { echo "#include \"$1\""; cut -d' ' -f2- "$room/exports"; } >"$room/again.c"
    gcc -std=c11 -Wall -Wextra -Werror -I. -fsyntax-only "$room/again.c"
}

# one NAME TYPES..: the header has this declaration, or one that is equal to it.
one() {
    name=$1
    shift
    printf '#include "tpal.h"\n%s\nvoid *try(void) { return (void *)%s; }\n' "$*" "$name" >"$room/one.c"
    gcc -std=c11 -Wall -Wextra -Werror -Ic -fsyntax-only "$room/one.c"
}

exports "$source" >"$room/all"
cut -d' ' -f1 "$room/all" | sort >"$room/expected"
holds 'the engine has exports' test -s "$room/expected"
while read -r name types; do
    holds "$types" one "$name" "$types"
done <"$room/all"
declared "$header" >"$room/in_header"
holds 'the header declares them and no other' diff "$room/expected" "$room/in_header"
defined -g "$static" >"$room/in_static"
holds 'the archive has them and no other' diff "$room/expected" "$room/in_static"
defined -D "$shared" >"$room/in_shared"
holds 'the shared library has them and no other' diff "$room/expected" "$room/in_shared"
holds 'header and source agree' agree "$header" "$source"
holds "the exports' contracts are those of job" same_contracts "$source" "$library"

# damaged NAME FILE SED: the two no longer agree.
damaged() {
    sed -e "$3" "$2" >"$room/damaged"
    case $2 in
    "$header") set -- "$1" "$2" "$room/damaged" "$source" ;;
    *) set -- "$1" "$2" "$header" "$room/damaged" ;;
    esac
    if cmp -s "$room/damaged" "$2"; then verdict 1 "$1: nothing was damaged"; return; fi
    fails "$1 is found out" agree "$3" "$4"
}
damaged 'a header without tpal_image_check' "$header" '/^uint8_t tpal_image_check/d'
damaged 'a header with another function' "$header" 's/^uint8_t tpal_image_check(.*/&\nuint8_t tpal_image_crop(const uint8_t *image, size_t image_len);/'
damaged 'a header with another name' "$header" 's/^uint8_t tpal_image_check(/uint8_t tpal_image_test(/'
damaged 'a header without a length' "$header" 's/(const uint8_t \*image, size_t image_len);/(const uint8_t *image);/'
damaged 'a header with a shorter number' "$header" 's/uint64_t slot,/uint32_t slot,/'
damaged 'a header with a shorter answer' "$header" 's/^uint64_t tpal_job_text/uint32_t tpal_job_text/'
damaged 'a header that writes what is read' "$header" 's/^uint8_t tpal_image_check(const /uint8_t tpal_image_check(/'
damaged 'a source without tpal_pick' "$source" 's/^pub extern "C" fn tpal_pick/fn tpal_pick/'
damaged 'a source with a parameter more' "$source" 's/fn tpal_image_check(image: &\[u8\])/fn tpal_image_check(image: \&[u8], depth: u64)/'
damaged 'a source with another export' "$source" '$a pub extern "C" fn tpal_carry_out(job: \&[u8]) -> u8'
sed 's/^\(    ensures value .* slot state\).old }/\1.new }/' "$source" >"$room/damaged"
fails 'an export with another contract is found out' same_contracts "$room/damaged" "$library"
sed 's/^pub fn tpal_pick/fn tpal_pick/' "$library" >"$room/damaged"
fails 'an export that job has not is found out' same_contracts "$source" "$room/damaged"

# The examples of the documentation.
awk -v room="$room" '
    /^    #include "tpal.h"/ { count++; reading = 1 }
    /^[^ ]/ { reading = 0 }
    reading { print substr($0, 5) >(room "/example-" count ".c") }' docs/api.md
for example in "$room"/example-*.c; do
    holds "docs/api.md: $(basename "$example" .c)" \
        gcc -std=c11 -Wall -Wextra -Werror -Ic -fsyntax-only "$example"
done

# Its tables: '| number | `TPAL_REFUSED_` |', then '| 1 | `HEADER` |'.
awk -F'[|`]' '
    /^\| number \| `TPAL_/ { front = $4 }
    /^\| [0-9]+ \| `[A-Z_]+` / { print front $4, $2 + 0 }' docs/numbers.md | sort >"$room/in_pages"
sed -n 's/^#define \(TPAL_\(REFUSED\|FAULT\)_[A-Z_]*\) \([0-9]*\).*/\1 \3/p' "$header" | sort >"$room/in_header"
holds 'docs/numbers.md has the names of all refusals and faults' diff "$room/in_header" "$room/in_pages"
total
