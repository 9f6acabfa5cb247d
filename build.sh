#!/bin/sh
# Proves programs with all that they are built from, and leaves each as target/NAME, with the checksum of its sources in
# target/NAME.sum. Progress goes to standard error.
# usage: build.sh PROGRAM..
#        build.sh --is-fresh PROGRAM     only tells by its status whether target/PROGRAM is built from the present sources
set -eu
cd "$(dirname "$0")"

is_fresh() {
    [ -x "target/$1" ] && [ -f "target/$1.sum" ] && [ "$(tools/checksum "$1")" = "$(cat "target/$1.sum")" ]
}

# Prints how far the build is, from what rt has written.
progress() {
    awk -v of="$(tools/checksum --crates "$1" | wc -l)" '
        /^fn / { split($2, path, "::"); crate = path[1] }
        /^so far: [0-9]+ of/ { print "build.sh: " $0 }
        /^logic=proved/ { split($2, count, "="); print "build.sh: " crate ": " count[2] " functions proved (crate " ++crates " of " of ")" }
    ' target/build.log
}

# Shows the progress of the build that process $2 makes of program $1, and at least every 30 seconds that it goes on.
show_progress() {
    lines=0
    seconds=0
    while kill -0 "$2" 2>/dev/null; do
        sleep 1
        seconds=$((seconds + 1))
        new=$(progress "$1" | tail -n +$((lines + 1)))
        if [ -n "$new" ]; then
            printf '%s\n' "$new" >&2
            lines=$((lines + $(printf '%s\n' "$new" | wc -l)))
        elif [ $((seconds % 30)) = 0 ]; then
            echo "build.sh: $1: proving for $seconds seconds" >&2
        fi
    done
}

# Proves and builds a program, as crates/NAME/out/NAME.
prove() {
    echo "build.sh: proving and building $1 (12 minutes or more at first, seconds after an edit)" >&2
    rm -f "crates/$1/out/$1"
    (cd "crates/$1" && exec rt run -- none </dev/null) >target/build.log 2>&1 9>&- &
    child=$!
    show_progress "$1" "$child"
    # The status is that of the program, which has invalid arguments here: the file tells how the build went.
    wait "$child" || :
    child=
    if [ ! -x "crates/$1/out/$1" ]; then
        tail -20 target/build.log >&2
        echo "build.sh: $1 is not built: see target/build.log" >&2
        exit 1
    fi
}

# Leaves a proved build as target/NAME: the one that the gate has kept of these sources, or a new one. The checksum is from the
# start of the build, so an edit made meanwhile makes the program stale.
build() {
    sum=$(tools/checksum "$1")
    program=target/test/$1.proved.$sum
    if [ ! -x "$program" ]; then
        prove "$1"
        program=crates/$1/out/$1
    fi
    rt version >target/kit
    rm -f "target/$1.sum"
    cp "$program" "target/$1.new"
    mv "target/$1.new" "target/$1"
    echo "$sum" >"target/$1.sum"
}

clean_up() {
    [ -z "${child:-}" ] || kill "$child" 2>/dev/null || :
    rm -f target/*.new
}

if [ "${1:-}" = --is-fresh ]; then
    is_fresh "$2"
    exit
fi
stale=
for name in "$@"; do
    is_fresh "$name" || stale="$stale $name"
done
[ -n "$stale" ] || exit 0
tools/need-rt build.sh
mkdir -p target
# One build at a time; whoever waited finds the work done.
exec 9>target/lock
flock 9
trap clean_up EXIT
trap 'exit 129' HUP
trap 'exit 130' INT
trap 'exit 143' TERM
for name in $stale; do
    is_fresh "$name" || build "$name"
done
