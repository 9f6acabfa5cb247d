#!/bin/sh
# For each test below a module `failed_allocations`, as the gate built and proved it: runs it with the first, second, .. allocation
# failing, until no allocation of a run fails. Each run has to pass, to print 'no memory' if and only if an allocation failed,
# and to free all memory. Every other test has to free all memory, too. Tests below a module `large_allocations` have to pass
# if each allocation of more than 64 KiB fails. It is a failure if there is no such test.
set -eu
cd "$(dirname "$0")/.."
room=$(mktemp -d)
trap 'rm -rf "$room"' EXIT
rustc --edition 2024 -O -C panic=abort --crate-type cdylib -o "$room/refuse.so" tools/refuse.rs
runs=0 failed=0 tests=0 sparing=0
for program in crates/*/out/*_tests; do
    [ -x "$program" ] || continue
    for name in $("$program" --list | sed -n 's/^\(.*failed_allocations::[a-z0-9_:]*\): test$/\1/p'); do
        n=0 refused=1 tests=$((tests + 1))
        while [ "$refused" = 1 ]; do
            n=$((n + 1)) runs=$((runs + 1)) status=0
            REFUSE=$n LD_PRELOAD="$room/refuse.so" "$program" "$name" >"$room/out" 2>"$room/err" || status=$?
            refused=0 reported=0
            grep -q '^refused' "$room/err" && refused=1
            grep -q '^no memory$' "$room/out" && reported=1
            if [ "$status" != 0 ] || [ "$refused" != "$reported" ] || grep -q '^leaked' "$room/err"; then
                echo "$program $name: allocation $n: status $status, refused $refused, reported $reported" >&2
                cat "$room/err" >&2
                failed=$((failed + 1))
            fi
            [ "$n" -lt 1000 ] || { echo "$program $name: no end" >&2; exit 1; }
        done
        echo "$name: $((n - 1)) allocations failed in turn"
    done
    for name in $("$program" --list | sed -n 's/^\(.*large_allocations::[a-z0-9_:]*\): test$/\1/p'); do
        runs=$((runs + 1)) sparing=$((sparing + 1))
        if ! LARGEST=65536 LD_PRELOAD="$room/refuse.so" "$program" "$name" >"$room/out" 2>"$room/err"; then
            echo "$program $name: fails where large requests are refused" >&2
            failed=$((failed + 1))
        fi
    done
    runs=$((runs + 1))
    LD_PRELOAD="$room/refuse.so" "$program" >"$room/out" 2>"$room/err" || :
    if grep -q '^leaked' "$room/err"; then
        echo "$program: $(grep '^leaked' "$room/err")" >&2
        failed=$((failed + 1))
    fi
done
echo "refused: $tests tests in turn, $sparing with large requests refused, $runs runs, $failed failures"
[ "$failed" = 0 ] && [ "$tests" -gt 0 ] && [ "$sparing" -gt 0 ]
