#!/bin/sh
# Runs the tests of HdrHistogram_c, from a folder of its source, over the library that capi/compat/build.sh has made. An
# assertion that fails has to be in DIFFERENCES.md, by its file and line. With a command as further arguments the tests run
# below it, as valgrind; CFLAGS are further options of the compiler.
# usage: capi/compat/tests/upstream.sh SOURCE [COMMAND..]
set -eu
cd "$(dirname "$0")/../../.."
top=$PWD
source=$1
shift
library=${HDR_OUT:-$top/capi/target/compat}
out=$library/upstream
mkdir -p "$out"
include="-I$source/include -I$source/src -I$source/test"
failed=0

# Compiles one of the tests. Those of logs use internal functions for Base64, which are taken from the source.
compile() {
    # shellcheck disable=SC2086
    "${CC:-cc}" -std=gnu11 -O1 -g -w -pthread ${CFLAGS:-} $include -include "$top/capi/compat/tests/each.h" \
        "$source/test/$1.c" "$source/test/minunit.c" $2 "$library/libhdr_histogram.a" -lm -o "$out/$1"
}

# Prints what fails in a test, and returns whether all of that is known.
check() {
    name=$1
    shift
    (cd "$source/test" && "$@" "$out/$name") >"$out/$name.log" 2>&1 || {
        tail -20 "$out/$name.log"
        echo "$name: failed"
        return 1
    }
    known=0
    for line in $(sed -n 's/^failed \([^ ]*\): .*/\1/p' "$out/$name.log" | sort -u); do
        if grep -q "^| \`$line\` " "$top/capi/compat/DIFFERENCES.md"; then
            known=$((known + 1))
        else
            grep "^failed $line" "$out/$name.log"
            return 1
        fi
    done
    echo "$name: $(sed -n 's/^Tests run: //p' "$out/$name.log") tests, $known assertions fail, which DIFFERENCES.md lists"
}

compile hdr_histogram_test ""
compile hdr_histogram_atomic_test ""
compile hdr_histogram_atomic_concurrency_test ""
compile hdr_histogram_log_test "$source/src/hdr_encoding.c"
for test in ${TESTS:-hdr_histogram_test hdr_histogram_atomic_test hdr_histogram_atomic_concurrency_test hdr_histogram_log_test}; do
    check "$test" "$@" || failed=1
done
exit $failed
