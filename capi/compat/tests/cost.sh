#!/bin/sh
# Prints instructions of each operation of the library, and of HdrHistogram_c, whose source is the argument, by callgrind.
# usage: capi/compat/tests/cost.sh SOURCE [OPERATION..]
set -eu
cd "$(dirname "$0")/../../.."
source=$1
shift
library=${HDR_OUT:-capi/target/compat}
out=$library/cost
mkdir -p "$out"

# Their library, with the options of Debian's package.
for file in hdr_histogram hdr_histogram_log hdr_encoding hdr_interval_recorder hdr_thread hdr_time hdr_writer_reader_phaser; do
    "${CC:-cc}" -O2 -g -fPIC -w -I"$source/include" -I"$source/src" -c -o "$out/$file.o" "$source/src/$file.c"
done
"${CC:-cc}" -O2 -I"$source/include" capi/compat/tests/cost.c "$out"/hdr_*.o -lm -lz -pthread -o "$out/theirs"
"${CC:-cc}" -O2 -I"$source/include" capi/compat/tests/cost.c "$library/libhdr_histogram.a" -lm -pthread -o "$out/ours"

instructions() {
    valgrind --tool=callgrind --callgrind-out-file=/dev/null "$1" "$2" "$3" 2>&1 | sed -n 's/.*Collected : //p'
}

# The instructions of one operation: those of many, less those of none.
one() {
    echo $((($(instructions "$1" "$2" "$3") - $(instructions "$1" "$2" 0)) / $3))
}

[ $# -gt 0 ] || set -- record record_atomic record_n record_corrected min max mean stddev p50 p999 record_p50 \
    records_p50 percentiles count_at_value count_at_index value_at_index lowest range next median are_equivalent iter_all iter_recorded \
    iter_linear iter_log iter_percentile reset add encode
loop=$(one "$out/theirs" none 64000)
for operation; do
    case $operation in
    p50 | p999 | record_p50 | records_p50) times=1000 base=$loop ;;
    record* | count_at* | value_at* | lowest | range | next | median | are_* | min | max) times=64000 base=$loop ;;
    *) times=10 base=0 ;;
    esac
    ours=$(($(one "$out/ours" "$operation" $times) - base))
    theirs=$(($(one "$out/theirs" "$operation" $times) - base))
    echo "$operation $ours $theirs $(awk "BEGIN { printf \"%.2f\", $ours / $theirs }")"
done
