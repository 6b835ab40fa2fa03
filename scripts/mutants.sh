#!/bin/sh
# Applies mutants/*.edit, changes made to definition and code alike, one after the other, and says
# which check catches each:
#
#     scripts/mutants.sh [-j COUNT] [-k] [-n] [NAME..]
#
# NAME is a mutant's number, name or file; without one all are tried. -j tries so many at a time, -k keeps
# the copies, -n only sees whether each edit fits: nothing is proved.
#
# A mutant gets a copy of the repository in a scratch folder, outside the tree, since rt ci looks over every
# file of that. rt begins there with what it kept of the same crates in the repository, which are therefore all
# proved first, so that those below the mutant's own are not proved again. Its crate has to be proved, and so
# have the others that it changes; else it is 'not proved': no mutant, but an edit of one side, to be mended.
# The crates that depend on its own come after it in the order of crates.txt, then the tests, until one says no:
#
#     table: CRATE        cases, doors
#     teeth               teeth
#     output: tpal_run    the run program, whose output on F scripts/crate.sh holds
#     proof: CRATE        another crate
#     Rust tests, C tests with the archive that is made of it
#     none                no check catches it
#
# A line for each mutant, and the counts. target/mutants/results.md is the table of all results so far;
# what was said is in target/mutants/NAME.log/. Status 0 when each was a mutant and was caught.
set -u
cd "$(dirname "$0")/.." || exit 1
PATH=$PATH:${HOME:-/root}/.cargo/bin
export PATH CARGO_TERM_COLOR=never
results=target/mutants
[ -z "${dry:-}" ] || results=target/mutants/fit

# apply EDIT ROOT: the edit carried out on the files below ROOT. All old texts are looked for in a file
# as it was; each has to be there once. ⏎ stands for a line's end.
apply() {
    LC_ALL=C awk -v root="$2" '
        function no(text) {
            print "edit: " text >"/dev/stderr"
            refused = 1
            exit 1
        }
        function whole(path,    line, got, text) {
            while ((got = (getline line <path)) > 0) text = text line "\n"
            if (got < 0) no(path " cannot be read")
            close(path)
            return text
        }
        function finish(    path, text, i, k, at, made, from) {
            if (file == "") return
            if (pairs == 0 || half) no(file ": an old text and a new one are missing")
            path = root "/" file
            text = whole(path)
            for (i = 1; i <= pairs; i++) {
                at = index(text, old[i])
                if (at == 0) no(file ": not found: " old[i])
                if (index(substr(text, at + 1), old[i])) no(file ": found twice: " old[i])
                for (k = i - 1; k > 0 && place[k] > at; k--) { place[k + 1] = place[k]; which[k + 1] = which[k] }
                place[k + 1] = at
                which[k + 1] = i
            }
            from = 1
            for (i = 1; i <= pairs; i++) {
                if (place[i] < from) no(file ": two old texts overlap: " old[which[i]])
                made = made substr(text, from, place[i] - from) new[which[i]]
                from = place[i] + length(old[which[i]])
            }
            ORS = ""
            print made substr(text, from) >path
            close(path)
            ORS = "\n"
            pairs = 0
        }
        /^#/ || /^$/ { next }
        /^file: / { finish(); file = substr($0, 7); next }
        /^old: / && !half { old[++pairs] = substr($0, 6); gsub(/⏎/, "\n", old[pairs]); half = 1; next }
        /^new: / && half { new[pairs] = substr($0, 6); gsub(/⏎/, "\n", new[pairs]); half = 0; next }
        { no("line " FNR ": " $0) }
        END { if (!refused) finish() }' "$1"
}

# after CRATE: the crates that depend on it.
after() {
    awk -v wanted="$1" '
        { sub(/#.*/, ""); colon = index($0, ":") }
        colon {
            split(substr($0, 1, colon - 1), word, " ")
            name = word[1]
            words = split(substr($0, colon + 1), word, " ")
            for (k = 1; k <= words; k++)
                if (word[k] == wanted || word[k] in found) { found[name]; print name; break }
        }' crates.txt
}

# said FILE: the first error in it, else its last line; short, and fit for a table.
said() {
    { grep -m 1 ' error[:[]' "$1" || tail -n 1 "$1"; } | sed 's|^\./||; s|^.*/crates/||' | tr -d '\t`|' | LC_ALL=C.UTF-8 sed -E 's/^(.{160}).*/\1/'
}

# line KEY EDIT: what its comment `# KEY: ..` says.
line() {
    sed -n "s/^# $1: //p" "$2" | head -n 1
}

# ends KIND DETAIL: the result of this mutant, and no more of it.
ends() {
    printf '%s\t%s\t%s\t%s\t%s\t%s\n' "$name" "$crate" "$1" "$2" "$(line Expect "$edit")" "$(($(date +%s) - began))" >"$results/$name.result"
    echo "$name: $1${2:+ ($2)}"
    [ -n "${keep:-}" ] || rm -rf "$room"
    exit 0
}

# proves CRATE..: the crates in the copy; the first that is refused is $no.
proves() {
    for no; do
        sh "$room/scripts/crate.sh" "$no" >"$logs/$no" 2>&1 || return 1
    done
}

# one EDIT: a mutant, from the copy to its result.
one() {
    edit=$1
    name=${edit##*/}
    name=${name%.edit}
    crate=$(line Crate "$edit")
    room=$rooms/$name
    logs=$results/$name.log
    began=$(date +%s)
    rm -rf "$room" "$logs" "$results/$name.result"
    mkdir -p "$room" "$logs"
    if [ -n "${dry:-}" ]; then
        tar --exclude=crates/*/out -cf - crates | tar -C "$room" -xf -
    else
        tar --exclude=./target --exclude=./rust/target --exclude=./.git --exclude=./crates/*/out -cf - . | tar -C "$room" -xf -
    fi
    apply "$edit" "$room" >"$logs/edit" 2>&1 || ends 'no edit' "$(said "$logs/edit")"
    [ -z "${dry:-}" ] || ends 'fits' ''

    # shellcheck disable=SC2046
    if ! proves "$crate" $(after "$crate"); then
        what=$(said "$logs/$no")
        if grep -q "^file: crates/$no/" "$edit"; then ends 'not proved' "$what"; fi
        case $no in
        cases | doors) ends "table: $no" "$what" ;;
        teeth) ends 'teeth' "$what" ;;
        tpal_run) ends 'output: tpal_run' "$what" ;;
        *) ends "proof: $no" "$what" ;;
        esac
    fi

    { sh "$room/scripts/crate.sh" tpal_run && sh "$room/scripts/crate.sh" job_c; } >"$logs/archive" 2>&1 ||
        ends 'no archive' "$(said "$logs/archive")"
    if ! (cd "$room" && cargo test --release --offline --manifest-path rust/Cargo.toml) >"$logs/rust" 2>&1; then
        first=$(awk '
            $1 == "Running" { binary = $2 == "unittests" ? $3 : $2; sub(/.*\//, "", binary) }
            $1 == "test" && $NF == "FAILED" { print binary " " $2; exit }' "$logs/rust")
        [ -n "$first" ] || ends 'no tests' "$(said "$logs/rust")"
        ends 'Rust tests' "$first"
    fi
    if ! (cd "$room" && sh c/test.sh) >"$logs/c" 2>&1; then
        first=$(sed -n 's/^FAILED *//p' "$logs/c" | head -n 1 | tr -d '|')
        ends 'C tests' "${first:-$(said "$logs/c")}"
    fi
    ends 'none' ''
}

# table: of all results so far, for docs/mutants.md.
table() {
    echo '| mutant | what is wrong | crate | caught by | where |'
    echo '| --- | --- | --- | --- | --- |'
    for edit in mutants/*.edit; do
        name=${edit##*/}
        name=${name%.edit}
        [ -f "$results/$name.result" ] || continue
        awk -F '\t' -v wrong="$(sed -n '1s/^# //p' "$edit" | tr -d '|')" '{ print "| " $1 " | " wrong " | " $2 " | " $3 " | " $4 " |" }' "$results/$name.result"
    done
}

if [ "${1:-}" = --one ]; then
    one "$2"
fi

count=1
keep=''
dry=''
while getopts j:kn option; do
    case $option in
    j) count=$OPTARG ;;
    k) keep=1 ;;
    n) dry=1 ;;
    *) exit 1 ;;
    esac
done
shift $((OPTIND - 1))
[ -z "$dry" ] || results=target/mutants/fit

if [ -z "$dry" ] && ! command -v rt >/dev/null; then
    echo 'rt, the Rattle toolchain, is not on the path, and only it can prove and build the engine.' >&2
    exit 1
fi

# The mutants that are named, or all.
named=''
if [ $# -eq 0 ]; then set -- mutants/*.edit; fi
for name; do
    name=${name##*/}
    name=${name%.edit}
    found=''
    for edit in "mutants/$name.edit" "mutants/$name"-*.edit "mutants/0$name"-*.edit mutants/[0-9]*-"$name.edit"; do
        if [ -f "$edit" ]; then found=$edit; break; fi
    done
    if [ -z "$found" ]; then
        echo "no such mutant: $name" >&2
        exit 1
    fi
    named="$named $found"
done

mkdir -p "$results"
if [ -z "$dry" ]; then sh scripts/prove.sh || exit 1; fi
rooms=$(mktemp -d) || exit 1
[ -n "$keep" ] || trap 'rm -rf "$rooms"' EXIT
trap 'exit 1' HUP INT TERM
export keep dry rooms
# shellcheck disable=SC2086
printf '%s\n' $named | xargs -P "$count" -n 1 sh scripts/mutants.sh --one
[ -z "$keep" ] || echo "the copies are in $rooms"
# shellcheck disable=SC2086
for edit in $named; do
    name=${edit##*/}
    cat "$results/${name%.edit}.result" 2>/dev/null || printf '\t\tno result\n'
done >"$results/now"
[ -n "$dry" ] || table >"$results/results.md"
awk -F '\t' '
    { kind = $3; sub(/:.*/, "", kind); number[kind]++; if (kind !~ /^(proof|table|teeth|output|Rust tests|C tests|fits)$/) left++ }
    END {
        words = split("table teeth output proof Rust_tests C_tests none not_proved no_edit no_archive no_tests no_result fits", word, " ")
        for (k = 1; k <= words; k++) {
            kind = word[k]
            gsub(/_/, " ", kind)
            if (kind in number) text = text (text ? ", " : "") number[kind] " " kind
        }
        print NR " mutants: " text
        exit left > 0
    }' "$results/now"
