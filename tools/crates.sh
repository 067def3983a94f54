# What scripts that go over crates share, which read this: crates.txt, and the crates below one. They set `root`, the repository.

# By crate, what its line of crates.txt names: crates of the repository, and libraries of the kit.
declare -A uses=()
# The crates that were added, each after those that it names.
declare -a crates=()
# By crate, whether it was added.
declare -A added=()

# Reads crates.txt, whose lines are `NAME: NAME NAME ..`, in any order.
read_crates() {
    local line name
    while IFS= read -r line; do
        line=${line%%#*}
        name=${line%%[: ]*}
        if [[ -n $name ]]; then
            uses[$name]=${line#*:}
        fi
    done <"$root/crates.txt"
}

# add_crate NAME: adds the crate, after those that it names.
add_crate() {
    local below
    added[$1]=yes
    for below in ${uses[$1]-}; do
        if [[ -v uses[$below] && ! -v added[$below] ]]; then
            add_crate "$below"
        fi
    done
    crates+=("$1")
}

# link FROM TO: a copy of a folder that has the very files of the first, if the file system allows. They are read or replaced, and
# never written into.
link() {
    cp -al "$1" "$2" 2>/dev/null || { rm -rf "$2" && cp -a "$1" "$2"; }
}
