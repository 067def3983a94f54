#!/usr/bin/env bash
# Times the library beside a parser of the same tables in Rust, and prints figures and ratios.
#
#     run.sh [--counts] [--before PROGRAM] [--before-lrpar PROGRAM] [--rounds N] [--folder FOLDER] TOOLS [GRAMMAR.y:LIST ..]
#
# TOOLS is a folder with tools/data.py, which makes tables and lexemes, and with the peer's crate peer_lrpar/. Each
# GRAMMAR is a grammar text, with a rule of it that is a list; without any they are those of TOOLS/../grammars. FOLDER
# keeps what is built, and what is there already isn't built again. README.md says the rest. The gate doesn't run this
# script. It needs rt, cargo and python3, and valgrind for --counts.
set -u

here=$(cd -P "$(dirname "$(readlink -f "${BASH_SOURCE[0]}")")" && pwd) || exit 1
readonly here
readonly root=$here/../..
readonly counts=(10000 100000 1000000)
readonly rules=(1000 10000)
readonly levels=1000000
export PYTHONDONTWRITEBYTECODE=1

usage() {
    printf 'usage: run.sh [--counts] [--before PROGRAM] [--before-lrpar PROGRAM] [--rounds N] [--folder FOLDER] TOOLS [GRAMMAR.y:LIST ..]\n' >&2
    exit 2
}

stop() {
    printf 'run.sh: %s\n' "$1" >&2
    exit 1
}

# Copies the repository with the proofs that were kept, and puts the program in as one more crate. Its files end in
# `.txt` here, since the gate takes no other for a file outside every crate.
copy_repository() {
    local file to
    mkdir -p "$copy" || return 1
    tar -C "$root" --exclude='crates/lrpar_program/out' --exclude='crates/nimbleparse/out' --exclude='crates/test_*/out' \
        --exclude='crates/example*/out' -cf - HANDLES crates.txt crates |
        tar -C "$copy" -xf - || return 1
    while IFS= read -r file; do
        to=$copy/crates/bench_program/${file%.txt}
        mkdir -p "$(dirname "$to")" && cp "$here/program/$file" "$to" || return 1
    done < <(cd "$here/program" && find . -name '*.txt')
    printf 'bench_program: lrpar lrpar_grammar_places lrpar_grammar lrpar_conflict_examples lrpar_lexer thiserror\n' >>"$copy/crates.txt"
}

# Proves the program and all below it, as far as no proof was kept, and builds it.
build_program() {
    copy_repository || stop "cannot copy the repository to $copy"
    (cd "$copy/crates/bench_program" && rt run -- actions 1) >"$work/program.log" 2>&1 </dev/null ||
        stop "the program isn't built: $(tail -n 3 "$work/program.log")"
}

# The same for the program `lrpar`, whose commands are counted.
build_lrpar() {
    (cd "$copy/crates/lrpar_program" && rt run -- demo a) >"$work/lrpar.log" 2>&1 </dev/null ||
        stop "lrpar isn't built: $(tail -n 3 "$work/lrpar.log")"
}

build_peer() {
    CARGO_TARGET_DIR=$work/peer cargo build --release --offline --manifest-path "$tools/peer_lrpar/Cargo.toml" \
        >"$work/peer.log" 2>&1 || stop "the peer isn't built: $(tail -n 3 "$work/peer.log")"
}

# Tables and lexemes of each grammar, and large grammar texts.
make_data() {
    local grammar number
    for grammar in "${grammars[@]}"; do
        python3 "$tools/tools/data.py" "${grammar%:*}" "$data.new" "${grammar##*:}" "${counts[@]}" >"$work/data.log" 2>&1 ||
            stop "no tables of ${grammar%:*}: $(tail -n 1 "$work/data.log")"
    done
    python3 "$tools/tools/data.py" "$here/deep.y" "$data.new/deep" L 1000 >"$work/data.log" 2>&1 &&
        python3 "$here/gen_deep.py" "$levels" >"$data.new/deep/deep.$levels.lx" || stop 'no table of a deep tree'
    for number in "${rules[@]}"; do
        python3 "$here/gen_grammar.py" "$number" >"$data.new/rules.$number.y" || stop 'no texts for the reader'
    done
    mv "$data.new" "$data"
}

work=
counts_commands=
measure_words=()
command_words=()
while [[ $# -gt 0 && $1 == --* ]]; do
    case $1 in
        --counts)
            counts_commands=yes
            measure_words+=(--counts)
            ;;
        --before | --before-lrpar | --rounds | --folder)
            [[ $# -gt 1 ]] || usage
            case $1 in
                --folder) work=$2 ;;
                --before-lrpar) command_words+=(--before "$2") ;;
                --before)
                    measure_words+=(--before "$2")
                    command_words+=(--before-parts "$2")
                    ;;
                *) measure_words+=("$1" "$2") ;;
            esac
            shift
            ;;
        *) usage ;;
    esac
    shift
done
[[ $# -gt 0 ]] || usage
tools=$1
shift
grammars=("$@")
[[ $# -gt 0 ]] ||
    grammars=("$tools/../grammars/json.y:JSONElementList" "$tools/../grammars/ansic.y:translation_unit" "$tools/../grammars/lua.y:chunk_1")
readonly tools grammars

if [[ -n $work ]]; then
    mkdir -p "$work" && work=$(cd "$work" && pwd) || exit 1
else
    work=$(mktemp -d) || exit 1
    trap 'rm -rf "$work"' EXIT
fi
readonly work
readonly copy=$work/repository
readonly data=$work/data
readonly program=$copy/crates/bench_program/out/bench_program
readonly lrpar=$copy/crates/lrpar_program/out/lrpar_program
readonly peer=$work/peer/release/peer_lrpar

[[ -x $program ]] || build_program
[[ -z $counts_commands || -x $lrpar ]] || build_lrpar
[[ -x $peer ]] || build_peer
[[ -d $data ]] || make_data
python3 "$here/measure.py" ${measure_words[@]+"${measure_words[@]}"} "$program" "$peer" "$data"
[[ -z $counts_commands ]] ||
    python3 "$here/commands.py" ${command_words[@]+"${command_words[@]}"} "$lrpar" "$program" "$tools"
