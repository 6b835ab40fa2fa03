#!/bin/sh
# Installs to a scratch folder, compiles a C and a C++ program against what is there through
# pkg-config, with the static library and with the shared one, runs them, and uninstalls. The last line
# is the total. Needs make, g++ and pkg-config, and installs them from Debian's packages where they are
# missing. Nothing is proved or compiled anew but for the assembler and what shows jobs.
set -eu
cd "$(dirname "$0")/.."
. c/counting.sh
room=$(mktemp -d)
trap 'rm -rf "$room"' EXIT
unset MAKEFLAGS MFLAGS MAKELEVEL

prefix=/opt/tpal
stage=$room/stage
at=$stage$prefix
version=$(sed -n 's/^#define TPAL_VERSION_STRING "\(.*\)"/\1/p' c/tpal.h)
soname=libtpal.so.${version%%.*}

# to DESTDIR TARGET
to() {
    make -s -o target/bin/tpal_run -o target/staticlib/libjob.a "$2" "DESTDIR=$1" PREFIX=$prefix
}

# Everything but folders.
files() {
    (cd "$1" && find . ! -type d | LC_ALL=C sort)
}

# package WORDS..: pkg-config on the scratch folder.
package() {
    PKG_CONFIG_LIBDIR=$at/lib/pkgconfig PKG_CONFIG_SYSROOT_DIR=$stage pkg-config "$@" tpal
}

# build COMPILER OUTPUT SOURCE: the source on its own, so that the installed header is found; against
# the shared library, and as OUTPUT-static against the static one.
build() {
    cp "$3" "$room/"
    # shellcheck disable=SC2046
    $1 -Wall -Wextra -Wconversion -Werror $(package --cflags) "$room/${3##*/}" $(package --libs) \
        -o "$room/$2" &&
        $1 -Wall -Wextra -Wconversion -Werror $(package --cflags) "$room/${3##*/}" -Wl,-Bstatic \
            $(package --libs) -Wl,-Bdynamic -o "$room/$2-static"
}

# needs PROGRAM: it needs the shared library, by its soname.
needs() {
    LC_ALL=C readelf -d "$1" | grep -q "NEEDED.*\[$soname\]"
}

# prints EXPECTED INPUT COMMAND..
prints() {
    expected=$1 input=$2
    shift 2
    LD_LIBRARY_PATH=$at/lib "$@" <"$input" >"$room/out" || true
    diff "$expected" "$room/out"
}

holds 'make, g++ and pkg-config' sh scripts/tools.sh make g++ pkg-config
if [ "$failed" -gt 0 ]; then total; exit 1; fi

holds 'install' to "$stage" install
files "$stage" >"$room/files"
cat >"$room/expected" <<END
.$prefix/bin/tpal_run
.$prefix/bin/tpasm
.$prefix/bin/tpasm-trace
.$prefix/include/tpal.h
.$prefix/lib/libtpal.a
.$prefix/lib/libtpal.so
.$prefix/lib/$soname
.$prefix/lib/libtpal.so.$version
.$prefix/lib/pkgconfig/tpal.pc
END
holds 'what is installed' diff "$room/expected" "$room/files"
holds "version $version" test "$(package --modversion)" = "$version"
holds 'the folder named in tpal.pc' grep -q "^prefix=$prefix\$" "$at/lib/pkgconfig/tpal.pc"
holds 'the installed header' cmp c/tpal.h "$at/include/tpal.h"

"$at/bin/tpasm" image examples/f/f.tpal -o "$room/f.image"
"$at/bin/tpasm" job examples/f/f.tpal -o "$room/f.job"
holds 'the run program' prints examples/f/f.out "$room/f.job" "$at/bin/tpal_run"
holds 'a trace' prints examples/f/f.out /dev/null "$at/bin/tpasm" trace "$room/f.job" --summary

holds 'a C program compiles' build 'gcc -std=c99' run c/run.c
holds 'it needs the shared library' needs "$room/run"
fails 'or not' needs "$room/run-static"
holds 'it runs' prints examples/f/f.out "$room/f.job" "$room/run"
holds 'with the static library' prints examples/f/f.out "$room/f.job" "$room/run-static"

echo 'halt with r0 12' >"$room/halt"
echo 'refused: the image has fewer than 8 bytes' >"$room/refused"
holds 'a C++ program compiles' build 'g++ -std=c++11' example c/example.cpp
holds 'it needs the shared library' needs "$room/example"
fails 'or not' needs "$room/example-static"
holds 'it runs' prints "$room/halt" "$room/f.image" "$room/example"
holds 'on no image' prints "$room/refused" /dev/null "$room/example"
holds 'with the static library' prints "$room/halt" "$room/f.image" "$room/example-static"

holds 'uninstall' to "$stage" uninstall
files "$stage" >"$room/files"
holds 'leaves nothing' cmp /dev/null "$room/files"

echo >"$room/kept"
stage="$room/a folder"
mkdir -p "$stage$prefix/lib"
cp "$room/kept" "$stage$prefix/lib/libtpal.so.0"
holds 'install to a folder with a space' to "$stage" install
holds 'uninstall there' to "$stage" uninstall
files "$stage" >"$room/files"
echo ".$prefix/lib/libtpal.so.0" >"$room/expected"
holds 'leaves what others have put there' diff "$room/expected" "$room/files"
fails 'a PREFIX that is no path' make -s -o target/bin/tpal_run -o target/staticlib/libjob.a \
    install "DESTDIR=$stage" PREFIX=opt
total
