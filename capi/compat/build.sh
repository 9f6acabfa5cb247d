#!/bin/sh
# Makes libhdr_histogram.so.6, its link libhdr_histogram.so, and libhdr_histogram.a in capi/target/compat, out of
# capi/target/libdkap.a: run capi/build.sh first. The header of HdrHistogram_c is the installed one (Debian's
# libhdr-histogram-dev), or hdr/hdr_histogram.h below the folder that HDR_INCLUDE names. Calls of a header that is not
# there are left out: the copy in redis has hdr_histogram.h alone.
set -eu
cd "$(dirname "$0")/../.."
out=${HDR_OUT:-capi/target/compat}
archive=capi/target/libdkap.a
warnings="-Wall -Wextra -Wshadow -pedantic -Werror"

fail() {
    echo "capi/compat/build.sh: $1" >&2
    exit 1
}

# Prints the folder of the headers.
find_headers() {
    for folder in "${HDR_INCLUDE:-}" "$(pkg-config --variable=includedir hdr_histogram 2>/dev/null || :)" \
        /usr/include /usr/local/include; do
        if [ -n "$folder" ] && [ -f "$folder/hdr/hdr_histogram.h" ]; then
            echo "$folder"
            return
        fi
    done
}

# Compiles a file of this library, if its header is there.
compile() {
    if [ -f "$headers/hdr/$2" ]; then
        # shellcheck disable=SC2086
        "${CC:-cc}" -std=c11 -O2 -fPIC -pthread $warnings ${HDR_FLAGS:-} -Icapi -isystem "$headers" -I"$out" \
            -c -o "$out/$1.o" "capi/compat/$1.c"
        objects="$objects $out/$1.o"
    else
        echo "capi/compat/build.sh: without the calls of $2, which is not in $headers/hdr" >&2
    fi
}

headers=$(find_headers)
[ -n "$headers" ] || fail "no header hdr/hdr_histogram.h: install libhdr-histogram-dev, or name a folder in HDR_INCLUDE"
[ -f "$archive" ] || fail "no $archive: run capi/build.sh"
mkdir -p "$out"
"${CC:-cc}" -std=c11 -O1 -Icapi -o "$out/layout" capi/compat/layout.c "$archive"
"$out/layout" >"$out/layout.h" || fail "the counts are not where the library can find them"

objects=
for file in histogram record classes reads iterators print; do
    compile "$file" hdr_histogram.h
done
compile threads hdr_writer_reader_phaser.h
compile interval hdr_interval_recorder.h
compile log hdr_histogram_log.h

# shellcheck disable=SC2086
ld -r -o "$out/libhdr_histogram.o" $objects --whole-archive "$archive"
objcopy --wildcard --keep-global-symbol='hdr_*' "$out/libhdr_histogram.o"
rm -f "$out/libhdr_histogram.a"
ar rcsD "$out/libhdr_histogram.a" "$out/libhdr_histogram.o"
# shellcheck disable=SC2086
"${CC:-cc}" -shared -pthread ${HDR_FLAGS:-} -Wl,-soname,libhdr_histogram.so.6 -Wl,-z,now -o "$out/libhdr_histogram.so.6" \
    "$out/libhdr_histogram.o" -lm
ln -sf libhdr_histogram.so.6 "$out/libhdr_histogram.so"
