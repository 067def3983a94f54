#!/usr/bin/env bash
# Makes a repository for a language of your own, over this library:
#
#   new-language.sh FOLDER NAME       makes FOLDER, which mustn't exist or must be empty, with the library and the crate NAME
#   new-language.sh --update FOLDER   replaces the library in such a repository by this version, and leaves your crates as they are
#
# The library is each crate that those need which a user names (DOORS), with what was proved of it here, if it was. The crate NAME is a
# small language of settings to start from. Ends with 0, or with 1 and a line that says why not.
set -u

here=$(cd -P "$(dirname "$(readlink -f "${BASH_SOURCE[0]}")")" && pwd) || exit 1
readonly here
root=$(dirname "$here")
readonly root
# shellcheck source=tools/crates.sh
. "$here/crates.sh"

# What users name of the library.
readonly DOORS=(lrpar lrpar_typed lrpar_language lrpar_lexer lrpar_messages lrpar_report lrpar_table_stops)
# The crate that a new one is a copy of.
readonly TEMPLATE=example_project
# The lines of crates.txt between which the library is.
readonly BEGIN="# == The library: tools/new-language.sh --update replaces these lines =="
readonly END="# == Your crates =="

fail() {
    printf 'new-language.sh: %s\n' "$1" >&2
    exit 1
}

# Whether it can be the name of a crate: lowercase letters, digits and `_`, and no name that is taken.
check_name() {
    [[ $1 =~ ^[a-z][a-z0-9_]*$ ]] || fail "cannot name a crate '$1': it takes lowercase letters, digits and _, and begins with a letter"
    [[ ! -v uses[$1] || $1 == "$TEMPLATE" ]] || fail "cannot name a crate '$1': the library has a crate of that name"
    [[ ! -e $(dirname "$(rt doc)")/rlibs/$1.rlib ]] || fail "cannot name a crate '$1': the kit has a library of that name"
}

# The lines of crates.txt for the library.
library_lines() {
    local name
    printf '%s\n' "$BEGIN"
    for name in "${crates[@]}"; do
        printf '%s:%s\n' "$name" "${uses[$name]}"
    done
    printf '%s\n' "$END"
}

# copy_library FOLDER: copies the crates of the library, each in place of the one that is there.
copy_library() {
    local name part
    for name in "${crates[@]}"; do
        rm -rf "$1/crates/$name" && mkdir -p "$1/crates/$name" || return 1
        for part in src specs proofs; do
            if [[ -e $root/crates/$name/$part ]]; then
                cp -a "$root/crates/$name/$part" "$1/crates/$name" || return 1
            fi
        done
        if [[ -e $root/crates/$name/out ]]; then
            link "$root/crates/$name/out" "$1/crates/$name/out" || return 1
        fi
    done
}

# old_library FILE: the crates that crates.txt has as those of the library.
old_library() {
    sed -n "/^${BEGIN}\$/,/^${END}\$/p" "$1" | sed -n 's/^\([a-z][a-z0-9_]*\)[: ].*/\1/p'
}

# update FOLDER
update() {
    local list=$1/crates.txt name
    grep -qxF "$BEGIN" "$list" 2>/dev/null && grep -qxF "$END" "$list" || fail "cannot update $1: its crates.txt has no lines of the library"
    for name in $(old_library "$list"); do
        rm -rf "$1/crates/$name" || fail "cannot write in $1/crates"
    done
    copy_library "$1" || fail "cannot write in $1/crates"
    { library_lines && sed "1,/^${END}\$/d" "$list"; } >"$list.new" && mv "$list.new" "$list" || fail "cannot write $list"
}

# make FOLDER NAME
make() {
    [[ ! -e $1 || -z $(ls -A "$1") ]] || fail "cannot make $1: it exists and isn't empty"
    check_name "$2"
    mkdir -p "$1/.ci" "$1/crates/$2" && copy_library "$1" || fail "cannot write in $1"
    library_lines >"$1/crates.txt" || fail "cannot write in $1"
    printf '%s:%s\n' "$2" "${uses[$TEMPLATE]}" >>"$1/crates.txt"
    cp -a "$root/HANDLES" "$root/.gitignore" "$1" && cp -a "$root/.ci/run" "$1/.ci/run" || fail "cannot write in $1"
    cp -a "$root/crates/$TEMPLATE/"{src,specs,stdin,stdout} "$1/crates/$2" || fail "cannot write in $1"
    sed -i "s/Rattle\.$TEMPLATE\./Rattle.$2./" "$1/crates/$2/src/syntax.rt" "$1/crates/$2/specs/Syntax.antt" || fail "cannot write in $1"
    sed "s/NAME/$2/g" "$here/new-language.md" >"$1/README.md" || fail "cannot write in $1"
}

command -v rt >/dev/null || fail "no command rt in PATH"
read_crates
for door in "${DOORS[@]}"; do
    [[ -v added[$door] ]] || add_crate "$door"
done
case "$#:${1-}" in
    2:--update) update "$2" ;;
    2:*) make "$1" "$2" ;;
    *) fail "usage: new-language.sh FOLDER NAME, or new-language.sh --update FOLDER" ;;
esac
