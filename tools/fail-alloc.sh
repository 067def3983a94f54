#!/usr/bin/env bash
# Runs each command of the real programs with each of its calls for memory refused in turn, and then with all calls refused from
# each one on; the cases of fail-alloc.cases likewise; and `lrpar` with an argument that isn't UTF-8. Cases with too many calls are
# in fail-alloc-from.cases, if that file is there: of their calls each of the first 200 is refused, and then one that lies a quarter
# further each time. A run has a stack of 8 MiB, and 60 seconds.
#
# A command in which a call is refused has to end with status 2, a beginning of the whole text on standard output, and on standard
# error a beginning of what else is written there and the line `lrpar: out of memory`, or `nimbleparse: out of memory`; or else
# with the whole answer as if no call had been refused. The cases are run twice. If a call is refused, there has to be one line on
# standard error, that a case, or what all cases use, is out of memory, so that each other case, and the same one in the other
# run, has its answer; or else no line. If all calls are refused from one on, no case after it has an answer, and that line is all
# that can be said. Prints how many calls each command and the cases make, what failed, and one closing line. The gate doesn't run
# this script. It needs cc and glibc.
set -u

here=$(cd -P "$(dirname "$(readlink -f "${BASH_SOURCE[0]}")")" && pwd) || exit 1
readonly here
readonly root=$here/..
readonly program=${LRPAR_PROGRAM:-$root/crates/lrpar_program/out/lrpar_program}
readonly nimbleparse=${NIMBLEPARSE_PROGRAM:-$root/crates/nimbleparse/out/nimbleparse}
readonly runner=${LRPAR_CASES:-$root/crates/test_cases/out/test_cases}
readonly most_calls=100000
readonly each_from=200
readonly most_from=1000000000

ulimit -S -s 8192 || exit 1
work=$(mktemp -d) || exit 1
readonly work
trap 'rm -rf "$work"' EXIT

passed=0
failed=0

# count CASE CHECK..: counts the case as passed if the check holds.
count() {
    local name=$1
    shift
    if "$@"; then
        passed=$((passed + 1))
    else
        failed=$((failed + 1))
        printf 'failed: %s: status %s, standard output and standard error:\n' "$name" "$status"
        cat "$work/out" "$work/err"
    fi
}

# run WORDS..: runs the program, and keeps what it wrote and its status.
run() {
    timeout 60 "$@" >"$work/out" 2>"$work/err" <"$work/input"
    status=$?
}

# wrote STATUS OUT ERR: whether the last run had just this status, standard output and standard error.
wrote() {
    [[ $status -eq $1 ]] && cmp -s "$work/out" <(printf '%s' "$2") && cmp -s "$work/err" <(printf '%s' "$3")
}

# begins FILE BYTES TEXT END: whether the file is this number of bytes of the text, and then the end.
begins() {
    cmp -s "$1" <(printf '%s' "$3" | head -c "$2" && printf '%s' "$4")
}

# Whether both streams ended early, standard error with the line `out of memory`.
is_out_of_memory() {
    local line=$speaker': out of memory
' out err
    out=$(stat -c %s "$work/out")
    err=$(($(stat -c %s "$work/err") - ${#line}))
    [[ $status -eq 2 && $err -ge 0 ]] && begins "$work/out" "$out" "$want_out" '' && begins "$work/err" "$err" "$want_err" "$line"
}

gives_answer() {
    wrote "$want_status" "$want_out" "$want_err"
}

gives_answer_or_is_out_of_memory() {
    gives_answer || is_out_of_memory
}

# One line, which begins as the usage line does.
gives_usage_line() {
    [[ $status -eq 2 && ! -s $work/out && $(wc -l <"$work/err") -eq 1 ]] && grep -q '^usage: lrpar ' "$work/err"
}

# run_refused WAY N PROGRAM WORDS..: runs a program with its Nth call for memory refused (AT), or all from the Nth on (FROM).
run_refused() {
    local way=$1 call=$2
    shift 2
    rm -f "$work/mark"
    run env FAIL_ALLOC_"$way"="$call" FAIL_ALLOC_MARK="$work/mark" LD_PRELOAD="$work/fail_alloc.so" "$@"
}

# refuse_each WAY PROGRAM WORDS..: refuses each call of a command in turn, until a run makes fewer calls than that.
refuse_each() {
    local way=$1 tool=$2 call
    shift 2
    for ((call = 1; call <= most_calls; call++)); do
        run_refused "$way" "$call" "$tool" "$@"
        if [[ ! -e $work/mark ]]; then
            printf '%s: %s calls, by FAIL_ALLOC_%s\n' "$1" "$((call - 1))" "$way"
            count "$*: no call refused" gives_answer
            count "$*: some call is refused" test "$call" -gt 1
            return
        fi
        count "$*: refused ${way,,} call $call" gives_answer_or_is_out_of_memory
    done
    count "$*: at most $most_calls calls" false
}

# refuse_each_call STATUS OUT WORDS..: the same of `lrpar`.
refuse_each_call() {
    local speaker=lrpar want_status=$1 want_out=$2 want_err=
    shift 2
    refuse_each AT "$program" "$@"
    refuse_each FROM "$program" "$@"
}

# refuse_each_call_of_nimbleparse STATUS OUT ERR WORDS..: the same of `nimbleparse`.
refuse_each_call_of_nimbleparse() {
    local speaker=nimbleparse want_status=$1 want_out=$2 want_err=$3
    shift 3
    refuse_each AT "$nimbleparse" "$@"
    refuse_each FROM "$nimbleparse" "$@"
}

# Whether the cases were run, and at most one was reported, as out of memory; or none, if those after it were not run.
gives_cases_or_is_out_of_memory() {
    case $status in
        0) cmp -s "$work/out" "$work/all" && [[ ! -s $work/err ]] ;;
        1) [[ $(wc -l <"$work/err") -eq 1 ]] && grep -q 'out of memory$' "$work/err" ;;
        *) false ;;
    esac
}

# refuse_calls_of_cases WAY EACH MOST FILE: runs the cases twice and refuses each of the first EACH calls in turn, and then one that
# lies a quarter further each time, until a run makes fewer calls than that, which is no more than MOST.
refuse_calls_of_cases() {
    local way=$1 each=$2 most=$3 name=${4##*/} call
    for ((call = 1; call <= most; call += call < each ? 1 : call / 4)); do
        run_refused "$way" "$call" "$runner" "$4" "$4"
        if [[ ! -e $work/mark ]]; then
            printf '%s: fewer than %s calls, by FAIL_ALLOC_%s\n' "$name" "$call" "$way"
            count "$name: no call refused" test "$status" -eq 0
            count "$name: some call is refused" test "$call" -gt 1
            return
        fi
        count "$name: refused ${way,,} call $call" gives_cases_or_is_out_of_memory
    done
    count "$name: at most $most calls" false
}

# refuse_calls_in_both_ways EACH MOST FILE: the same in both ways, if the cases are right before.
refuse_calls_in_both_ways() {
    run "$runner" "$3" "$3"
    if [[ $status -ne 0 ]]; then
        count "${3##*/}: before any call is refused" false
        return
    fi
    mv "$work/out" "$work/all"
    refuse_calls_of_cases AT "$@"
    refuse_calls_of_cases FROM "$@"
}

if [[ -z ${LRPAR_CASES:-} ]] && ! (cd "$root/crates/test_cases" && rt run -- wrong.cases) >/dev/null 2>&1; then
    printf 'the cases fail before any call is refused\n' >&2
    exit 1
fi
if [[ -z ${LRPAR_PROGRAM:-} ]] && ! "$root/lrpar" demo a+b >/dev/null; then
    printf 'lrpar demo a+b fails before any call is refused\n' >&2
    exit 1
fi
if [[ -z ${NIMBLEPARSE_PROGRAM:-} ]] && ! "$root/nimbleparse" -h >/dev/null; then
    printf 'nimbleparse -h fails before any call is refused\n' >&2
    exit 1
fi
if ! cc -O1 -Wall -shared -fPIC -o "$work/fail_alloc.so" "$here/fail_alloc.c"; then
    printf 'cannot build tools/fail_alloc.c\n' >&2
    exit 1
fi

printf '%s' "%% E: T '+' E | T; T: 'ID';" >"$work/sum.y"
printf '%s' "%start A %% A: 'a' 'b' | B 'b'; B: 'a' | C; C: 'a';" >"$work/conflicts.y"
printf '%s' "%% E : 'N' | E '+' 'N' | '(' E ')';" >"$work/brackets.y"
printf '%s\n' "n 'N'" "\\+ '+'" "\\( '('" "\\) ')'" >"$work/brackets.lex"
printf '%s\n' "insert ')'" "insert ')' delete" "insert '+' shift insert ')'" >"$work/brackets.repairs"
printf '%s\n' 'delete' "insert 'INT'" >"$work/calc.repairs"
printf '%s\n' '%%' "'N' '('" ' {before} needs {expected} after it, not {found}' >"$work/brackets.messages"
printf '(nn' >"$work/text"
printf '(n)' >"$work/whole"
printf '%s' '%% E: F;' >"$work/wrong.y"
printf '%s' "%left '+' %expect 0 %avoid_insert '+' %% E -> u8: E '+' E { 1 } | 'N' { 2 };" >"$work/levels.y"
printf '%s\n' '%x SUM' '%%' "\\( <SUM>;" "<SUM>n 'N'" "<SUM>\\+ '+'" "<SUM>\\) <INITIAL>;" >"$work/levels.l"
printf '(n+n+n)' >"$work/sum"
printf '%s' "%left 'N' %% E: 'N' %prec 'M';" >"$work/unknown.y"
printf '%s\n' '%%' 'n "M"' >"$work/unknown.l"
printf '%s' "%token M %left '+' %expect 0 %% E: E '+' E | 'N';" >"$work/unused.y"
printf '%s\n' '2 + + 3' '' '(2 + 3) * 4' >"$work/input"

refuse_each_call 0 'E
 T
  ID a
 + +
 E
  T
   ID b
' demo a+b
refuse_each_call 1 'Parsing error at line 1 column 3. Repair sequences found:
   1: Insert ), Delete n
   2: Insert +, Shift n, Insert )
E
 ( (
 E
  N n
 ) 
' tree "$work/brackets.y" "$work/brackets.lex" "$work/text" "$work/brackets.repairs"
refuse_each_call 0 'rules 3, productions 4, tokens 3, states 6
checked
complete
' check "$work/sum.y" 2
refuse_each_call 0 'rules 4, productions 6, tokens 3, states 7
checked
not complete: condition C5 at state 4
' check "$work/conflicts.y" 2
refuse_each_call 2 'rules 3, productions 4, tokens 3, states 6
refused: chain too long at state 4, token $
' check "$work/sum.y" 1
refuse_each_call 0 "Reduce/Reduce conflict, can reduce 'B' or 'C' with lookahead 'b' at $work/conflicts.y:1:33
1| %start A %% A: 'a' 'b' | B 'b'; B: 'a' | C; C: 'a';
                                   ^ First reduce
1| %start A %% A: 'a' 'b' | B 'b'; B: 'a' | C; C: 'a';
                                               ^ Second reduce
1| %start A %% A: 'a' 'b' | B 'b'; B: 'a' | C; C: 'a';
                       ^ Lookahead

Shift/Reduce conflict, can shift 'b' or reduce 'B' at $work/conflicts.y:1:33
1| %start A %% A: 'a' 'b' | B 'b'; B: 'a' | C; C: 'a';
                       ^ Shift
1| %start A %% A: 'a' 'b' | B 'b'; B: 'a' | C; C: 'a';
                                   ^ Reduced rule
1| %start A %% A: 'a' 'b' | B 'b'; B: 'a' | C; C: 'a';
                                       - Reduced productions

" conflicts "$work/conflicts.y"
refuse_each_call 1 'Parsing error at line 1 column 5. Repair sequences found:
   1: Delete +
   2: Insert INT
Result: 5
Result: 20
' calc --shifts 1 "$work/calc.repairs"

refuse_each_call_of_nimbleparse 2 '' "nimbleparse: unexpected argument '--minimize' found; a similar argument exists: '--minimise'
" --minimize pager
refuse_each_call_of_nimbleparse 1 '' "$work/text:1:3: error: unexpected 'n', expected '+' or ')'
1| (nn
   - ^
   |
   this isn't closed
help: replace 'n' by ')'
1| (n)
     ~
help: or insert '+'
help: or delete 'n'
" -q "$work/brackets.lex" "$work/brackets.y" "$work/text"
refuse_each_call_of_nimbleparse 0 'E[ "(" E[ N "n" ] ")" ]
' "$work/brackets.y: note: rules 2, productions 4, tokens 5, states 8, least cap 1
" "$work/brackets.lex" "$work/brackets.y" "$work/whole"
refuse_each_call_of_nimbleparse 2 '' "$work/wrong.y:1:7: error: name 'F' is neither a rule nor declared by %token
1| %% E: F;
         ^ did you mean 'E'?
" "$work/brackets.lex" "$work/wrong.y"
refuse_each_call_of_nimbleparse 0 'E[ E[ E[ N "n" ] "+" E[ N "n" ] ] "+" E[ N "n" ] ]
' "$work/levels.y: note: rules 2, productions 3, tokens 3, states 5, least cap 1, conflicts resolved by precedences 1
" "$work/levels.l" "$work/levels.y" "$work/sum"
refuse_each_call_of_nimbleparse 2 '' "$work/unknown.y:1:28: error: name 'M' is no token
1| %left 'N' %% E: 'N' %prec 'M';
                              ^ did you mean 'N'?
" "$work/unknown.l" "$work/unknown.y"
refuse_each_call_of_nimbleparse 2 '' "$work/unknown.l:2:4: error: the grammar has no token 'M'
2| n \"M\"
      ^ did you mean 'N'?
" -q "$work/unknown.l" "$work/brackets.y"
refuse_each_call_of_nimbleparse 1 "rules 2, productions 3, tokens 4, states 5, least cap 1, conflicts resolved by precedences 1
shift/reduce conflicts 0, reduce/reduce conflicts 0, as expected
" "$work/unused.y:1:8: warning: token 'M' isn't used
1| %token M %left '+' %expect 0 %% E: E '+' E | 'N';
          ^ no rule that is reached from the start rule has it
" "$work/unused.y"
refuse_each_call_of_nimbleparse 2 '' "nimbleparse: --shifts needs a lexer: a single path is that of a grammar
" --shifts 2 "$work/unused.y"

refuse_each_call_of_nimbleparse 1 '' "$work/text:1:3: error: 'n' needs '+' or ')' after it, not 'n'
1| (nn
   - ^
   |
   this isn't closed
help: replace 'n' by ')'
1| (n)
     ~
help: or insert '+'
help: or delete 'n'
" -q --messages "$work/brackets.messages" "$work/brackets.lex" "$work/brackets.y" "$work/text"
refuse_each_call_of_nimbleparse 1 '' "$work/brackets.messages: error: no message for \$
$work/brackets.messages: error: no message for 'N' ')'
$work/brackets.messages: error: no message for '(' \$
$work/brackets.messages: error: no message for 'N' '+' \$
$work/brackets.messages: error: no message for '(' 'N' \$
$work/brackets.messages: error: no message for 'N' '+' 'N' '('
$work/brackets.messages: error: no message for '(' 'N' ')' '('
" --check-errors "$work/brackets.messages" "$work/brackets.lex" "$work/brackets.y"
refuse_each_call_of_nimbleparse 0 "%%

// expected 'n' or '('
\$

// expected '+' or end of input
'N' ')'

// expected '+' or end of input
// elsewhere expected ')'
'N' '('

// expected 'n' or '('
'(' \$

// expected 'n'
'N' '+' \$

// expected '+' or ')'
'(' 'N' \$

// expected '+' or end of input
// elsewhere expected ')'
'N' '+' 'N' '('

// expected '+' or end of input
// elsewhere expected ')'
'(' 'N' ')' '('
" '' --list-errors "$work/brackets.lex" "$work/brackets.y"

printf "%%%% S: 'IF' S | 'IF' S 'ELSE' S | 'VAR';\n" >"$work/else.y"
printf "i 'IF'\ne 'ELSE'\n[a-z] 'VAR'\n" >"$work/else.lex"
printf 'ELSE: an else branch\n' >"$work/else.messages"
printf 'x' >"$work/variable"
refuse_each_call_of_nimbleparse 0 'S[ VAR "x" ]
' "$work/else.y:1:8: warning: conflict at an else branch in state 8: the token is shifted, and 'S' isn't reduced
1| %% S: 'IF' S | 'IF' S 'ELSE' S | 'VAR';
          ^^^^^ this could be reduced instead; an example is below
'e' in state 8: one text, two derivations
  i i VAR . e VAR
  reduce S: 'i' S
    S[ i S[ i S[ VAR ] ] e S[ VAR ] ]
  shift 'e'
    S[ i S[ i S[ VAR ] e S[ VAR ] ] ]

$work/else.y: note: rules 2, productions 4, tokens 4, states 12, least cap 1
" --minimise canonical --messages "$work/else.messages" "$work/else.lex" "$work/else.y" "$work/variable"

printf "%%%%\nS: 'A' | 'SIGN' X;\nX: X 'C';\n" >"$work/endless.y"
printf "a 'A'\n! 'SIGN'\nc 'C'\n" >"$work/endless.lex"
printf '!a' >"$work/stuck"
refuse_each_call_of_nimbleparse 1 '' "$work/endless.y:3:1: warning: rule 'X' derives no text
3| X: X 'C';
   ^ each of its productions needs a rule that derives none
$work/endless.y: note: rules 3, productions 4, tokens 4, states 6, least cap 1
$work/endless.y: note: an error may have no repair: no tokens complete '!', in state 3
$work/stuck:1:2: error: unexpected 'a'
1| !a
    ^
note: no repair was found within --limit 8000; a larger limit may find one
" "$work/endless.lex" "$work/endless.y" "$work/stuck"

refuse_calls_in_both_ways "$most_calls" "$most_calls" "$here/fail-alloc.cases"
if [[ -e $here/fail-alloc-from.cases ]]; then
    refuse_calls_in_both_ways "$each_from" "$most_from" "$here/fail-alloc-from.cases"
fi

run "$program" demo $'\xff'
count 'an argument that is not UTF-8' gives_usage_line
run "$program" $'\xff'
count 'a command that is not UTF-8' gives_usage_line

printf '%s passed, %s failed\n' "$passed" "$failed"
[[ $failed -eq 0 ]]
