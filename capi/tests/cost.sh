#!/bin/sh
# Prints the instructions of calls of dkap.h, of those of HdrHistogram_c, whose source is the argument, and their ratio, by callgrind.
# What a call's address and the loop take is left out.
# usage: capi/tests/cost.sh SOURCE [OPERATION..]
set -eu
cd "$(dirname "$0")/../.."
source=$1
shift
library=${DKAP_OUT:-capi/target}
out=$library/cost
mkdir -p "$out"

# Their library, with the options of Debian's package.
"${CC:-cc}" -O2 -g -fPIC -w -I"$source/include" -I"$source/src" -c -o "$out/hdr_histogram.o" "$source/src/hdr_histogram.c"
"${CC:-cc}" -O2 -DTHEIRS -I"$source/include" capi/tests/cost.c "$out/hdr_histogram.o" -lm -o "$out/theirs"
"${CC:-cc}" -O2 -Icapi capi/tests/cost.c "$library/libdkap.a" -lm -o "$out/ours"

instructions() {
    valgrind --tool=callgrind --callgrind-out-file=/dev/null "$1" "$2" "$3" 2>&1 | sed -n 's/.*Collected : //p'
}

# The instructions of one operation: those of many, less those of none.
one() {
    echo $((($(instructions "$1" "$2" "$3") - $(instructions "$1" "$2" 0)) / $3))
}

[ $# -gt 0 ] || set -- record record_n record_corrected len min max count_at lowest p99 mean
loop=$(one "$out/theirs" none 64000)
for operation; do
    case $operation in
    p99 | mean) times=100 ;;
    *) times=64000 ;;
    esac
    ours=$(($(one "$out/ours" "$operation" $times) - loop))
    theirs=$(($(one "$out/theirs" "$operation" $times) - loop))
    echo "$operation $ours $theirs $(awk "BEGIN { printf \"%.2f\", $ours / $theirs }")"
done
