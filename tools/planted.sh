#!/usr/bin/env bash
# Tries wrong bodies that the prover has to refuse, beside those in crates/*/must-fail:
# planted.sh [--built REPOSITORY] [--workers N] [CRATE | CRATE/EDIT]..
#
# tools/planted/CRATE holds them, in the format of must-fail; an edit of must-fail can be named too. With no word each crate's are
# tried. They are tried over the libraries that the gate built here, or in another copy of the repository: run `rt ci` first. Prints a
# verdict an edit, and one closing line. planted.py says how an edit is tried.
set -u

here=$(cd -P "$(dirname "$(readlink -f "${BASH_SOURCE[0]}")")" && pwd) || exit 1
readonly here
exec python3 "$here/planted.py" "$@"
