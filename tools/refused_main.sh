#!/bin/sh
# Runs the program that rt ci built without a failing allocation, and then with the first, second, .. one failing, until no
# allocation of a run fails. Such a run prints what is written here. The others print the same, or 'hdr: no memory' with
# status 1: without output then, or for a log with whole intervals from its start, at least those that were written when an
# earlier allocation failed. No run may leak memory.
set -eu
cd "$(dirname "$0")/.."
room=$(mktemp -d)
trap 'rm -rf "$room"' EXIT
rustc --edition 2024 -O -C panic=abort --crate-type cdylib -o "$room/refuse.so" tools/refuse.rs
program=crates/hdr/out/hdr
[ -x "$program" ] || { echo "$program is not built: run rt run in crates/hdr" >&2; exit 1; }
runs=0 failed=0

# Runs the arguments with allocation $n failing, or none if $n is 0. The outputs go to files, lines 'refused' apart from the error.
run() {
    status=0 refused=0
    REFUSE=$n LD_PRELOAD="$room/refuse.so" "$program" "$@" <"$room/in" >"$room/out" 2>"$room/all" || status=$?
    grep -v '^refused' "$room/all" >"$room/err" || :
    ! grep -q '^refused' "$room/all" || refused=1
    runs=$((runs + 1))
}

# Whether the run printed what it prints if no allocation fails.
is_right() {
    [ "$status" = "$wanted" ] && cmp -s "$room/out" "$room/right" && cmp -s "$room/err" "$room/fault"
}

# Whether it printed that memory ran out, and before that nothing, or for a log whole lines.
is_refusal() {
    [ "$status" = 1 ] && [ "$(cat "$room/err")" = "hdr: no memory" ] || return 1
    size=$(wc -c <"$room/out")
    [ "$size" -ge "$kept" ] || return 1
    kept=$size
    [ "$size" = 0 ] && return 0
    [ "$1" = log ] && head -c "$size" "$room/right" | cmp -s - "$room/out" && [ "$(tail -c 1 "$room/out" | od -An -tx1)" = " 0a" ]
}

# What the next arguments have to print: status, error and output.
wants() {
    wanted=$1
    printf '%b' "$2" >"$room/fault"
    printf '%b' "$3" >"$room/right"
}

# Counts a failure, and prints the outputs of the last run.
fail() {
    echo "$1: status $status, refused $refused" >&2
    cat "$room/out" "$room/err" >&2
    failed=$((failed + 1))
}

# Runs arguments on the input $room/in, with each allocation failing in turn.
each() {
    n=0 kept=0
    run "$@"
    is_right || fail "$*: no allocation failed"
    refused=1
    while [ "$refused" = 1 ]; do
        n=$((n + 1))
        run "$@"
        is_right || { [ "$refused" = 1 ] && is_refusal "$1"; } || fail "$*: allocation $n"
        [ "$n" -lt 1000 ] || { echo "$*: no end" >&2; exit 1; }
    done
    echo "hdr $*: $((n - 1)) allocations failed in turn, status $wanted"
}

# What stands in V2 bytes of three digits between the payload's length and the lower half of the highest value, and after it.
middle=0000000000000003000000000000000100000000
ratio=3ff0000000000000

printf 'r 1\nr 2 3\nr 5000\nc 100 7\n' >"$room/in"
gaps=020b020b020b020b020b020b020b020b020b020b020b020b020b02
wants 0 '' "len 19\n1/2 44\n99/100 5003\nv2 1c84931300000022${middle}00001fff${ratio}0002060b${gaps}f93102\n"
each report 3 1/2 99/100
printf 'r 1 9223372036854775808\n' >"$room/in"
wants 0 '' 'len 9223372036854775808\n1/1 1\nv2 none\n'
each report 0 1/1
printf 'r 1\nx\n' >"$room/in"
wants 1 'hdr: line 2: not a command\n' ''
each report 3 1/2
usage='hdr report SIGFIG Q.. | hdr log SIGFIG | hdr merge [--into COUNTER] [--tag T] [--from MS] [--to MS] SIGFIG Q..'
wants 2 "hdr: usage: $usage\n" ''
each report 3 1/2 9/0
printf 'r 1\nend 0 1000 a\nr 5000\nend 1000 1000\n' >"$room/in"
first='Tag=a,0.000,1.000,1.000,HISTEwAAAAIAAAAAAAAAAwAAAAAAAAABAAAAAAAAAAI/8AAAAAAAAAAC\n'
second='1.000,1.000,5003.000,HISTEwAAAAMAAAAAAAAAAwAAAAAAAAABAAAAAAAAH/8/8AAAAAAAAMMzAg==\n'
wants 0 '' "$first$second"
each log 3
first=$(head -n 1 "$room/right" | wc -c)
if [ "$kept" != "$first" ]; then
    echo "hdr log 3: $kept bytes where memory is refused to the second interval, and not the first interval's $first" >&2
    failed=$((failed + 1))
fi
cp "$room/right" "$room/log"
printf 'r 1\nend 0 1\nend 5 5 a,b\n' >"$room/in"
wants 1 'hdr: line 3: not a command\n' '0.000,0.001,1.000,HISTEwAAAAIAAAAAAAAAAwAAAAAAAAABAAAAAAAAAAI/8AAAAAAAAAAC\n'
each log 3
cp "$room/log" "$room/in"
wants 0 '' "len 2\n1/2 1\n1/1 5003\nv2 1c84931300000005${middle}0000138b${ratio}0002bf3302\n"
each merge 3 1/2 1/1
wants 0 '' "len 1\n1/2 1\nv2 1c84931300000002${middle}00000002${ratio}0002\n"
each merge --to 500 --tag a --into u8 --from 0 3 1/2
printf '0.0,1.0,1.0,HISTFAAA\n' >"$room/in"
wants 1 "hdr: interval 1: The histogram uses features that this implementation doesn't support\n" ''
each merge 3 1/2
echo "refused: the program, $runs runs, $failed failures"
[ "$failed" = 0 ]
