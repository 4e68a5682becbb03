#!/bin/sh
# Installs the built program, its man page and the Singular library under a prefix:
#
#     ./install.sh [PREFIX]        /usr/local where it is not given
#
# With DESTDIR in the environment all of it goes below that folder, as packages are made. The program is the one that
# `rt ci` proves and builds at the top of the repository, or that the variable INVRING of the environment names.
set -eu

if [ $# -gt 1 ]; then
    echo "usage: install.sh [PREFIX]" >&2
    exit 2
fi
case ${1:-/usr/local} in
    /*) prefix=${1:-/usr/local} ;;
    *)
        echo "install: the prefix has to begin with /; nothing was installed" >&2
        exit 2
        ;;
esac
top=$(cd "$(dirname "$0")" && pwd)
program=${INVRING:-$top/crates/invring/out/invring}
if [ ! -f "$program" ] || [ ! -x "$program" ]; then
    echo "install: the program is not built: there is no $program" >&2
    echo "install: 'rt ci' at the top of the repository proves and builds it (README.md); nothing was installed" >&2
    exit 1
fi
newer=
if [ -z "${INVRING:-}" ]; then
    newer=$(find "$top/crates.txt" "$top"/crates/*/src "$top"/crates/*/specs "$top"/crates/*/proofs \
        -newer "$program" -print 2>/dev/null | head -n 1)
fi
if [ -n "$newer" ]; then
    echo "install: the program is older than $newer" >&2
    echo "install: 'rt ci' at the top of the repository proves and builds it anew; nothing was installed" >&2
    exit 1
fi

under=${DESTDIR:-}$prefix
library=$prefix/share/singular/LIB
mkdir -p "$under/bin" "$under/share/man/man1" "$under/share/singular/LIB"
install -m 755 "$program" "$under/bin/invring"
install -m 644 "$top/share/man/man1/invring.1" "$under/share/man/man1/invring.1"
install -m 644 "$top/share/singular/invring.lib" "$under/share/singular/LIB/invring.lib"
echo "installed $under/bin/invring, its man page and $under/share/singular/LIB/invring.lib"

# Singular looks beside its own program, and in the folders of SINGULARPATH.
if [ "$prefix" != /usr ]; then
    echo "a Singular that is installed elsewhere finds the library with SINGULARPATH=$library"
fi
