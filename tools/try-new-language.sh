#!/usr/bin/env bash
# Tries new-language.sh, in a folder that it makes and removes: try-new-language.sh [--check]
#
# A new repository runs its tests; it refuses a grammar that its code wasn't generated from; and --update brings the library back and leaves the
# rest alone. With --check, `rt check` proves the new crate, too, which can take an hour. Prints a line for
# each of these, and ends with 0 if all are so.
set -u

here=$(cd -P "$(dirname "$(readlink -f "${BASH_SOURCE[0]}")")" && pwd) || exit 1
readonly here
folder=$(mktemp -d) || exit 1
readonly folder
trap 'rm -rf "$folder"' EXIT
readonly crate=$folder/tiny/crates/tiny
wrong=0

# says TEXT COMMAND..: prints whether the command ends with 0.
says() {
    local text=$1
    shift
    if "$@" >"$folder/log" 2>&1; then
        printf 'ok: %s\n' "$text"
    else
        printf 'WRONG: %s\n' "$text"
        tail -n 5 "$folder/log"
        wrong=1
    fi
}

# in_crate COMMAND..
in_crate() {
    (cd "$crate" && "$@")
}

# Whether the program ends because its grammar has another production than its code.
refuses_the_grammar() {
    sed -i "s/^Setting: 'NAME' '=' Number ';';/Setting: 'NAME' '=' Number ';' ';';/" "$crate/src/syntax.rt"
    in_crate rt try <"$crate/stdin" 2>&1 | grep -F "the grammar isn't the one that syntax.rt was generated from"
}

# Whether an update brings back a file of the library, and leaves the changed file of the crate.
updates() {
    echo "// changed" >>"$folder/tiny/crates/lrpar/src/lib.rt"
    "$here/new-language.sh" --update "$folder/tiny" || return 1
    cmp "$here/../crates/lrpar/src/lib.rt" "$folder/tiny/crates/lrpar/src/lib.rt" && grep -qF "Number ';' ';';" "$crate/src/syntax.rt" \
        && grep -q '^tiny: ' "$folder/tiny/crates.txt"
}

says "a repository is made" "$here/new-language.sh" "$folder/tiny" tiny
says "a folder that isn't empty is refused" bash -c "! '$here/new-language.sh' '$folder/tiny' tiny"
says "its tests run" in_crate rt try --test
if [[ ${1-} == --check ]]; then
    says "it is proved" in_crate rt check
fi
says "another grammar is refused" refuses_the_grammar
says "the library is updated, and the rest stays" updates
exit "$wrong"
