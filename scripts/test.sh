#!/bin/sh
# Tries scripts/ and the Makefile: what `make run` prints, its status, spaces in paths, budgets and
# names; and, with a stand-in for rt in a scratch folder, that each crate is proved once, in order,
# with a line of its own. The last line is the total. Nothing is proved.
set -eu
cd "$(dirname "$0")/.."
. c/counting.sh
room=$(mktemp -d)
trap 'rm -rf "$room"' EXIT
unset MAKEFLAGS MFLAGS MAKELEVEL

# ---- The run

make() {
    command make -s -o target/bin/tpal_run -o target/staticlib/libjob.a "$@"
}

# says STATUS FIRST-LINES COMMAND..: its status, and how its standard output begins.
says() {
    wanted=$1 lines=$2
    shift 2
    ended=0
    "$@" >"$room/out" 2>"$room/complaint" </dev/null || ended=$?
    if [ "$ended" -ne "$wanted" ]; then
        cat "$room/out" "$room/complaint"
        echo "status $ended"
        return 1
    fi
    printf "$lines" >"$room/lines"
    head -n "$(wc -l <"$room/lines")" "$room/out" | diff "$room/lines" -
}

# unnamed: the last output is this file's, once the names beside the registers are gone.
unnamed() {
    awk '/^r[0-9]/ { print $1, $2, $3 ($2 == "rec" ? " " $4 : ""); next } { print }' "$room/out" |
        diff - "$1"
}

# complains TEXT: the last command's standard error has it.
complains() {
    grep -q "$1" "$room/complaint" || { cat "$room/complaint"; return 1; }
}

spaced="$room/a folder/my program.tpal"
mkdir "$room/a folder"
cp examples/f/f.tpal "$spaced"
printf 'main:\n  jump main\n' >"$room/endless.tpal"

make lib target/c/run
holds 'F' says 0 'end halt\nwork 9\nspan 7\n' sh scripts/run.sh examples/f/f.tpal
holds 'what the run program prints' unnamed examples/f/f.out
holds 'F with a budget' says 0 'end halt\nwork 9\nspan 7\n' sh scripts/run.sh -b 9 examples/f/f.tpal
holds 'the same' unnamed examples/f/f.out
holds 'a fault' says 2 'end fault 37\nwork 2\nspan 2\n' sh scripts/run.sh examples/f/f.tpal --places 1
holds 'its status in words' complains 'status 2: a fault'
holds 'spent' says 3 'end spent\nwork 8\n' sh scripts/run.sh -b 8 examples/f/f.tpal
holds 'its status in words' complains 'status 3: spent'
holds 'the run program spends 1,000,000 picks' says 3 'end spent\nwork 1000000\n' \
    sh scripts/run.sh "$room/endless.tpal"
holds 'the budget replaces it' says 3 'end spent\nwork 1000001\n' \
    sh scripts/run.sh -b 1000001 "$room/endless.tpal"
holds 'a budget of 0' says 3 'end spent\nwork 0\n' sh scripts/run.sh -b 0 "$room/endless.tpal"
holds 'no number' says 4 '' sh scripts/run.sh -b many "$room/endless.tpal"
holds 'in words' complains "the budget is a number of picks, found 'many'"
holds 'no such text' says 4 '' sh scripts/run.sh "$room/none.tpal"
holds 'no text' says 4 '' sh scripts/run.sh
holds 'a path with spaces' says 0 'end halt\n' sh scripts/run.sh "$spaced"
holds 'from another folder' says 0 'end halt\n' \
    sh -c 'cd "$1" && exec sh "$2" "my program.tpal"' sh "${spaced%/*}" "$PWD/scripts/run.sh"

holds 'make run' says 0 'end halt\nwork 9\n' make run
holds 'make run, a path with spaces' says 0 'end halt\nwork 9\n' make run "JOB=$spaced"
holds 'make run, an option' says 2 'end fault 37\n' make run "JOB=$spaced" 'OPTIONS=--places 1'
holds 'make run, a budget' says 2 'end spent\nwork 3\n' make run BUDGET=3
holds 'the status that make prints' complains 'run\] Error 3'
holds 'make trace' says 0 '   pick slot line  block  instruction         what it changed\n' make trace
holds 'make trace, an option' says 0 'end fault 37\nwork 2\n' make trace "JOB=$spaced" \
    'OPTIONS=--places 1 --summary'
holds 'make picture' says 0 '<svg xmlns="http://www.w3.org/2000/svg".*\n' \
    sh -c 'make -s -o target/bin/tpal_run -o target/staticlib/libjob.a picture | sed "1s/svg\" .*/svg\".*/"'
holds 'make profile' says 0 'end halt, work 9, span 7\n' make profile
holds 'the stored traces' sh scripts/traces.sh "$room"
for trace in rust/trace/tests/data/*.trace; do
    holds "${trace##*/}" cmp "$trace" "$room/${trace##*/}"
done
holds 'make help' says 0 'The block engine.*\n' sh -c 'make help | sed "1s/engine.*/engine.*/"'
for target in all run trace traces install uninstall clean help; do
    holds "a line for $target" grep -q "^make ${target#all}" "$room/out"
done

# ---- Names and statuses, with stand-ins for assembler and run program

stand=$room/stand
mkdir -p "$stand/scripts" "$stand/rust/target/release" "$stand/target/bin"
cp scripts/*.sh "$stand/scripts/"
cat >"$stand/rust/target/release/tpasm" <<'END'
#!/bin/sh
case $1 in
names) printf 'r0 total\nr10 left-over\n' ;;
*) while [ $# -gt 1 ]; do shift; done; : >"$1" ;;
esac
END
printf '#!/bin/sh\ncat "$(dirname "$0")/said"\n' >"$stand/target/bin/tpal_run"
chmod +x "$stand/rust/target/release/tpasm" "$stand/target/bin/tpal_run"
printf 'end halt\nwork 1\nr0 int -5\nr1 lab 0\nr10 rec 1 2\n' >"$stand/target/bin/said"
holds 'names stand beside their registers' \
    says 0 'end halt\nwork 1\nr0 int -5    total\nr1 lab 0\nr10 rec 1 2  left-over\n' \
    sh "$stand/scripts/run.sh" some.tpal
echo 'refused 12' >"$stand/target/bin/said"
holds 'refused' says 1 'refused 12\n' sh "$stand/scripts/run.sh" some.tpal
holds 'its status in words' complains 'status 1: refused'
: >"$stand/target/bin/said"
holds 'nothing printed' says 4 '' sh "$stand/scripts/run.sh" some.tpal
sed 's/^names) .*/names) exit 2 ;;/' "$stand/rust/target/release/tpasm" >"$stand/without"
cat "$stand/without" >"$stand/rust/target/release/tpasm"
printf 'end halt\nr0 int 5\n' >"$stand/target/bin/said"
holds 'an assembler without names' says 0 'end halt\nr0 int 5\n' sh "$stand/scripts/run.sh" some.tpal

# ---- Proofs, with a stand-in for rt

cp -R c Makefile "$stand/"
mkdir -p "$stand/bin" "$stand/rust/tpasm" "$stand/rust/model"
: >"$stand/rust/Cargo.toml"
: >"$stand/rust/Cargo.lock"
for file in low/src/lib high/src/lib aside/src/lib job/src/lib job_c/src/lib tpal_run/src/main; do
    mkdir -p "$stand/crates/${file%/*}"
    echo "$file" >"$stand/crates/$file.rt"
done
echo 'a job' >"$stand/crates/tpal_run/stdin"
echo 'a job' >"$stand/crates/tpal_run/stdout"
cat >"$stand/crates.txt" <<'END'
# The lowest first.
low:
high: low
aside: high low
job: high low
job_c staticlib: job high low
tpal_run: job high low
END
cp target/staticlib/libjob.a "$stand/bin/archive"
cat >"$stand/bin/rt" <<'END'
#!/bin/sh
# Stands in for rt in a crate's folder: a crate is proved when its file differs from the last time, a static
# library each time. The program prints its input.
if [ "$1" = version ]; then
    echo stand-in
    exit
fi
name=${PWD##*/}
file=$(echo src/*.rt)
mkdir -p out
{
    if grep -q wrong "$file"; then
        echo "$file: error: this is wrong"
        exit 1
    fi
    if [ "$name" = job_c ] || ! cmp -s "$file" out/last; then
        echo "prove $name" >>../../calls
        echo 'a long note'
        echo 'logic=proved functions=1'
        cp "$file" out/last
    fi
} >&2
case $name in
job_c) cp ../../bin/archive out/libjob_c.a ;;
tpal_run)
    echo program >out/tpal_run
    cat
    ;;
esac
END
chmod +x "$stand/bin/rt"
rm -rf "$stand/target"

# built: make in the scratch folder, its seconds as 'n s'.
built() {
    : >"$stand/calls"
    (cd "$stand" && PATH=$stand/bin:$PATH command make -s "$@" 2>"$room/complaint") >"$room/timed" ||
        return 1
    sed 's/[0-9]* s$/n s/' "$room/timed" >"$room/out"
}

# lines TEXT, called TEXT: what make printed, and what rt proved.
lines() { printf "$1" | diff - "$room/out"; }
called() { printf "$1" | diff - "$stand/calls"; }

holds 'make, from nothing' built lib
holds 'a line for each crate' lines "$(printf '%s' \
    'proving  1 of 4: low .. n s\nproving  2 of 4: high .. n s\nproving  3 of 4: job .. n s\n' \
    'proving  4 of 4: tpal_run .. n s\narchive of job_c .. n s\n')"
holds 'each is proved once' called \
    'prove low\nprove high\nprove job\nprove tpal_run\nprove job_c\n'
holds 'the notes are in a log' grep -q 'a long note' "$stand/target/log/prove-high.log"
holds 'no links' test -z "$(find "$stand/target" -type l)"
holds 'make again' built lib
holds 'says nothing' lines ''
holds 'proves nothing' called ''
sleep 0.01
touch "$stand/crates/low/src/lib.rt"
holds 'make with a newer file that is the same' built lib
holds 'its lines' lines "$(printf '%s' 'proving  1 of 4: low .. unchanged\n' \
    'proving  2 of 4: high .. unchanged\nproving  3 of 4: job .. unchanged\n' \
    'proving  4 of 4: tpal_run .. unchanged\narchive of job_c .. unchanged\n')"
holds 'proves nothing' called ''
echo more >>"$stand/crates/high/src/lib.rt"
holds 'make with a change' built lib
holds 'proves that, and makes the archive' called 'prove high\nprove job_c\n'
echo more >>"$stand/crates/aside/src/lib.rt"
holds 'make with a change beside the archive' built lib
holds 'proves nothing' called ''
rm "$stand/target/bin/tpal_run"
holds 'make without the run program' built lib
holds 'proves nothing' called ''
holds 'puts it there again' test -f "$stand/target/bin/tpal_run"
rm "$stand/target/staticlib/libjob.a"
holds 'make without the archive' built lib
holds 'makes it again' called 'prove job_c\n'
(cd "$stand" && PATH=$stand/bin:$PATH sh scripts/prove.sh) >"$room/out"
holds 'all crates' test "$(wc -l <"$room/out")" -eq 6
echo 'another job' >"$stand/crates/tpal_run/stdout"
fails 'make with a program that prints something else' built lib
holds 'says so' complains 'printed something else than its file stdout has'
echo 'a job' >"$stand/crates/tpal_run/stdout"
echo wrong >>"$stand/crates/high/src/lib.rt"
fails 'make with what is wrong' built lib
holds 'goes no further' called ''
holds 'shows what was said' complains 'src/lib.rt: error: this is wrong'
holds 'names the log' complains 'target/log/prove-high.log'

mkdir "$room/few"
for command in sh dirname; do ln -s "$(command -v $command)" "$room/few/$command"; done
ended=0
PATH=$room/few "$room/few/sh" scripts/prove.sh tpal_run >"$room/complaint" 2>&1 || ended=$?
holds 'without rt' test "$ended" -eq 1
holds 'one sentence' test "$(wc -l <"$room/complaint")" -eq 1
holds 'that says so' complains '^rt, the Rattle toolchain, is not on the path'
total
