#!/bin/sh
# Fetches the source package of HdrHistogram_c from Debian's archive into a folder, by apt-get with lists of its own, so that
# the machine's are unchanged, and prints the folder of its files. Nothing is fetched if it is there.
# usage: capi/compat/fetch.sh FOLDER PACKAGE SUITE
set -eu
folder=$(mkdir -p "$1" && cd "$1" && pwd)
package=$2
suite=$3
mirror=${DEBIAN_MIRROR:-http://deb.debian.org/debian}
keyring=/usr/share/keyrings/debian-archive-keyring.gpg

apt() {
    apt-get -qq -o Dir::State="$folder/state" -o Dir::Cache="$folder/cache" -o Dir::Etc::sourceparts=- \
        -o Dir::Etc::sourcelist="$folder/sources.list" -o APT::Sandbox::User=root -o Acquire::Retries=1 \
        -o Acquire::http::Timeout=20 "$@"
}

unpacked() {
    find "$folder/$package" -mindepth 1 -maxdepth 1 -type d 2>/dev/null | head -1
}

if [ -z "$(unpacked)" ]; then
    if ! command -v apt-get >/dev/null || [ ! -f $keyring ]; then
        echo "capi/compat/fetch.sh: no apt-get, or no debian-archive-keyring" >&2
        exit 1
    fi
    mkdir -p "$folder/state/lists/partial" "$folder/cache/archives/partial" "$folder/$package"
    echo "deb-src [signed-by=$keyring] $mirror $suite main" >"$folder/sources.list"
    cd "$folder/$package"
    apt update >&2
    apt source --download-only --tar-only "$package" >&2
    for archive in *.orig.tar.*; do
        tar xf "$archive"
    done
fi
unpacked
