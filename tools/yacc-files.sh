#!/usr/bin/env bash
# Compares how bison and nimbleparse read the .y, .yy and .ypp files below a folder: yacc-files.sh [--program PATH] [--jobs N] FOLDER
#
# Prints a table of the files that one of the two refuses, or whose states or conflicts differ, and a closing line. The status is 1 if the
# table has a file, and 2 if a program is missing. The gate doesn't run it. It needs bison 3.8 and Python 3.9. `--program`, or
# NIMBLEPARSE_PROGRAM, is the path of nimbleparse, if it isn't the one that `./nimbleparse` builds. yacc_files.py says what is compared.
#
# Many such files are in the sources of Debian's packages. With a line `deb-src` in the list of sources:
#
#     mkdir sources && cd sources && apt-get source bash bc bison byacc flex gawk graphviz groff iproute2 mawk units
set -u

here=$(cd -P "$(dirname "$(readlink -f "${BASH_SOURCE[0]}")")" && pwd) || exit 1
readonly here
exec python3 "$here/yacc_files.py" "$@"
