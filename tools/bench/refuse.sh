#!/usr/bin/env bash
# Reads two small grammar texts, builds and checks their tables, and asks whether these are complete, with each call for memory
# refused in turn.
#
#     refuse.sh PROGRAM
#
# PROGRAM is the built bench_program, which reads a text twice, builds its table twice, or asks twice whether
# the table is complete. If a call for memory of the first time is refused, this time has to report it and the next one has to give
# the answer, or both have to give it, since a list asks again for less; and the other way round. Prints the cases that failed, and
# one closing line. The gate doesn't run this script. It needs cc and glibc.
set -u

here=$(cd -P "$(dirname "$(readlink -f "${BASH_SOURCE[0]}")")" && pwd) || exit 1
readonly here
readonly most_calls=10000

[[ $# -eq 1 && -x $1 ]] || {
    printf 'usage: refuse.sh PROGRAM\n' >&2
    exit 2
}
program=$(readlink -f "$1") || exit 1
readonly program
work=$(mktemp -d) || exit 1
readonly work
trap 'rm -rf "$work"' EXIT

cc -O1 -Wall -shared -fPIC -o "$work/fail_alloc.so" "$here/../fail_alloc.c" || exit 1
printf "%%%% E: T '+' E | T; T: 'ID';" >"$work/sum"
printf "%%start A\n%%%%\nA : 'a' 'b' | B 'b';\nB : 'a' | C;\nC : 'a';\n" >"$work/conflicts"

passed=0
failed=0

# The program's outcome in a mode in which its call for memory of this number is refused.
outcome() {
    rm -f "$work/mark"
    FAIL_ALLOC_AT=$1 FAIL_ALLOC_MARK=$work/mark LD_PRELOAD=$work/fail_alloc.so \
        timeout 60 "$program" "$2" 1 "$3" >"$work/out" 2>"$work/err" </dev/null
    printf '%s|%s|%s' "$?" "$(paste -sd/ "$work/out")" "$(<"$work/err")"
}

# refuse_each MODE TEXT ANSWER: refuses each call in turn, until a run makes fewer calls than that.
refuse_each() {
    local call given first=0 second=0
    for ((call = 1; call <= most_calls; call++)); do
        given=$(outcome "$call" "$1" "$work/$2")
        [[ -e $work/mark ]] || break
        passed=$((passed + 1))
        case $given in
            "0|memory/$3|") first=$((first + 1)) ;;
            "0|$3/memory|") second=$((second + 1)) ;;
            "0|$3/$3|") ;; # a list that may not grow by much asks again for less
            '2||bench_program: out of memory') ;; # before the first time: its arguments, and the file
            '2||bench_program: grammar: out of memory') ;; # before it is built: the grammar
            '2||bench_program: no table is built') ;; # before it is asked of: the table
            *)
                passed=$((passed - 1)) failed=$((failed + 1))
                printf 'failed: %s of %s, call %s refused: %s\n' "$1" "$2" "$call" "$given"
                ;;
        esac
    done
    if [[ $given == "0|$3/$3|" && $first -gt 0 && $first -eq $second ]]; then
        passed=$((passed + 1))
    else
        failed=$((failed + 1))
        printf 'failed: %s of %s, no call refused: %s; %s of the first time, %s of the second\n' "$1" "$2" "$given" "$first" "$second"
    fi
}

refuse_each read_twice sum '3 rules, 3 tokens, 4 productions'
refuse_each read_twice conflicts '4 rules, 3 tokens, 6 productions'
refuse_each build_twice sum '6 states, 12 entries, no conflicts'
refuse_each build_twice conflicts '7 states, 10 entries, 1 and 1 conflicts'
refuse_each check_twice sum '6 states, 12 entries, no conflicts'
refuse_each check_twice conflicts '7 states, 10 entries, 1 and 1 conflicts'
refuse_each complete_twice sum 'complete'
refuse_each complete_twice conflicts 'condition C5 at state 4'
printf '%s passed, %s failed\n' "$passed" "$failed"
[[ $failed -eq 0 ]]
