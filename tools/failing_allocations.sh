#!/usr/bin/env bash
# Three worked runs and their questions, `flow`, `run` and `debug`, with each allocation failing in turn, up to the first
# number at which none fails: each call gives its usual answer, or status 5 with a prefix of it. It proves nothing,
# builds anew for each number, which takes a minute, and stands outside the gate.
#
#     tools/failing_allocations.sh [FIRST [LAST]]     the numbers of allocations to try, 1 to 200 where none are given
top="$(cd "$(dirname "$0")/.." && pwd)" || exit 2
first="${1:-1}"
last="${2:-200}"
folder="$(mktemp -d)" || exit 2
trap 'rm -rf "$folder"' EXIT
wrong=0

printf '%s' 'shared int x; process a { x = 2; print(x + 3); }' >"$folder/smallest.c"
printf '%s' 'shared int x; sem m = 1; process a { P(m); x = x + 1; V(m); } process b { P(m); x = x + 1; V(m); }' >"$folder/lock.c"
printf '%s' 'process a { int i = 3; while (i < 3) { i = i + 1; } print(i); }' >"$folder/loop.c"
# the recording of the smallest run, of which docs/formats.md tells each byte
{
    printf 'PPDR\001\000\001\206\240\000\000\000\000\000\000\0000'
    cat "$folder/smallest.c"
    printf '\001\000\000\000\004\001\000\000\000\000\002\000\000\000\001\000\000\000\000\000\000\000\000'
    printf '\004\000\000\000\000\005\000\000\000\000\003\000\001\000\000\000\001\000\000'
} >"$folder/smallest.rec"

# The call of these words with one allocation failing: what it answered, and in `answer` how that is told.
try_call() {
    local number="$1" file="$2" input="$3" usual="$4" written status
    shift 4
    written="$(cd "$top/crates/ppd" && printf '%s' "$input" | rt try --fail-alloc "$number" --data "$file=$folder/$file" -- "$@" 2>/dev/null)"
    status=$?
    if [ "$status" = 0 ] && [ "$written" = "$usual" ]; then
        answer="the usual answer"
    elif [ "$status" = 5 ] && [ "${usual#"$written"}" != "$usual" -o -z "$written" ]; then
        answer="status 5, a prefix"
    else
        answer="WRONG: status $status, $(printf '%s' "$written" | head -c 60)"
        wrong=1
    fi
}

# All numbers of one call; after three usual answers in a row no allocation of that number was made.
try_each() {
    local usual_runs=0 number
    for number in $(seq "$first" "$last"); do
        try_call "$number" "$@"
        echo "${*:4}: allocation $number fails: $answer"
        [ "$answer" = "the usual answer" ] && usual_runs=$((usual_runs + 1)) || usual_runs=0
        [ "$usual_runs" -ge 3 ] && break
    done
}

smallest="process a ended steps 4
print a 5
races 0"
answered="x=2 from a 0 0
item 1 stmt 1 1:34 print read x=2 value 5
read x=2 from a 0 0
control from entry"
locked="process a ended steps 5
process b ended steps 5
races 0"
looped="process a ended steps 5
print a 3
races 0
item 1 block 1 loop 1:24 left i=3
left i=3 from a 0 0
control from entry
item 0 stmt 1 1:24 test read i=3 value 0
read i=3 from a 0 0
control from entry"

try_each smallest.c $'final\nwhy a 0 1\n' "$smallest
$answered" flow smallest.c
try_each lock.c $'races\nblocks a\n' "$locked
races 0
block 0 in - process a closed" flow lock.c
try_each loop.c $'why a 0 1\nwhy a 1 0\n' "$looped" flow --loops 1 loop.c
try_each smallest.c '' "$smallest" run smallest.c smallest.rec
try_each smallest.rec $'final\nwhy a 0 1\n' "$answered" debug smallest.rec

exit $wrong
