#!/bin/sh
# Makes the library for C in capi/target: libdkap.a, libdkap.so.1 with its link libdkap.so, and dkap.pc. Only the calls of dkap.h are
# visible in them. The recorder is libdkap_recorder.a, libdkap_recorder.so.1 and dkap_recorder.pc. The crate hdr_c is proved and built first, if its archive is not newer than its sources.
set -eu
cd "$(dirname "$0")/.."
proved=crates/hdr_c/out/libhdr_c.a
out=capi/target
version=$(sed -n 's/.*have version \(.*\)\.$/\1/p' crates.txt)
# Whether the archive is newer than all files that the crate is built from.
is_fresh() {
    [ -f "$proved" ] || return 1
    folders=$(tools/checksum --crates hdr_c | sed 's|[: ].*||; s|^|crates/|')
    [ -z "$(find $folders -name out -prune -o \( -name '*.rt' -o -name '*.antt' \) -newer "$proved" -print)" ]
}

# Whether the libraries are newer than all that they are made of.
is_built() {
    [ -z "${CC:-}${DKAP_C:-}" ] && [ -f "$out/dkap_recorder.pc" ] && is_fresh || return 1
    [ -z "$(find capi "$proved" -maxdepth 1 -type f -newer "$out/dkap_recorder.pc" -print)" ]
}

# Prints every 30 seconds that the proof goes on, while this script runs.
show_progress() {
    seconds=0
    while sleep 30 >/dev/null 2>&1 && kill -0 $$ 2>/dev/null; do
        seconds=$((seconds + 30))
        echo "capi/build.sh: hdr_c: proving for $seconds seconds" >&2
    done
}

! is_built || exit 0
tools/need-rt capi/build.sh
kit=$(dirname "$(rt doc | tail -1)")
mkdir -p "$out"
if ! is_fresh; then
    echo "capi/build.sh: proving and building hdr_c (minutes at first, seconds after an edit)" >&2
    show_progress &
    ticker=$!
    trap 'kill "$ticker" 2>/dev/null || :' EXIT
    (cd crates/hdr_c && rt lib) >"$out/build.log" 2>&1 || {
        tail -20 "$out/build.log" >&2
        exit 1
    }
    kill "$ticker"
    trap - EXIT
    touch "$proved"
fi

# One object of the proved code, the kit's calls of malloc, realloc and free, and dkap.c.
sed -nE 's/^(dkap_status|uint64_t|bool|void|const char) \*?(dkap_[a-z0-9_]+)\(.*/\2/p' capi/dkap.h >"$out/symbols"
"${CC:-cc}" -std=c99 -O2 -fPIC -Wall -Wextra -pedantic -Werror -DDKAP_VERSION="\"$version\"" \
    -c -o "$out/dkap.o" "${DKAP_C:-capi/dkap.c}" -Icapi
ld -r -o "$out/libdkap.o" "$out/dkap.o" --whole-archive "$proved" --no-whole-archive "$kit/c/liblibc_c.a"
objcopy --keep-global-symbols="$out/symbols" "$out/libdkap.o"

rm -f "$out/libdkap.a"
ar rcsD "$out/libdkap.a" "$out/libdkap.o"
"${CC:-cc}" -shared -Wl,-soname,libdkap.so.1 -Wl,-z,defs -Wl,-z,now -o "$out/libdkap.so.1" "$out/libdkap.o"
ln -sf libdkap.so.1 "$out/libdkap.so"
sed "s|@VERSION@|$version|" capi/dkap.pc.in >"$out/dkap.pc"

# The recorder, which is not proved, is a library of its own. It stays loaded: what it does at the end of a thread may be
# called later.
sed -nE 's/^(dkap_status|void) (dkap_recorder_[a-z_]+)\(.*/\2/p' capi/recorder.h >"$out/recorder_symbols"
"${CC:-cc}" -std=c11 -O2 -fPIC -pthread -Wall -Wextra -Wshadow -pedantic -Werror -c -o "$out/recorder.o" -Icapi capi/recorder.c
rm -f "$out/libdkap_recorder.a"
ar rcsD "$out/libdkap_recorder.a" "$out/recorder.o"
"${CC:-cc}" -shared -pthread -Wl,-soname,libdkap_recorder.so.1 -Wl,-z,defs -Wl,-z,now -Wl,-z,nodelete \
    -o "$out/libdkap_recorder.so.1" "$out/recorder.o" "$out/libdkap.so.1"
ln -sf libdkap_recorder.so.1 "$out/libdkap_recorder.so"
sed "s|@VERSION@|$version|" capi/dkap_recorder.pc.in >"$out/dkap_recorder.pc"
# What another compiler or source has made is not taken for the library.
[ -z "${CC:-}${DKAP_C:-}" ] || touch -d 1970-01-02 "$out/dkap_recorder.pc"
