#!/bin/sh
# Installs the commands among its arguments that are missing, from Debian's packages:
#
#     scripts/tools.sh gcc cargo
#
# Status 0 when all of them are there in the end.
set -u
PATH=$PATH:${HOME:-/root}/.cargo/bin

missing=''
for command; do
    command -v "$command" >/dev/null || missing="$missing $command"
done
[ -n "$missing" ] || exit 0

packages=''
for command in $missing; do
    case $command in
    gcc) packages="$packages gcc libc6-dev" ;;
    *) packages="$packages $command" ;;
    esac
done
as_root=''
[ "$(id -u)" -eq 0 ] || as_root='sudo -n'
if ! command -v apt-get >/dev/null; then
    echo "tools:$missing: not on the path, and there is no apt-get to install it with" >&2
    exit 1
fi
# shellcheck disable=SC2086
$as_root apt-get update -q &&
    $as_root env DEBIAN_FRONTEND=noninteractive apt-get install -q -y --no-install-recommends $packages

for command in $missing; do
    command -v "$command" >/dev/null || { echo "tools: $command could not be installed" >&2; exit 1; }
done
