#!/bin/sh
# Makes the shared library of the archive: target/shared/libambiguity.so, with its names for linkers and loaders.
#
#     sh bindings/shared.sh
set -eu
cd "$(dirname "$0")/.."

version=$(cat VERSION)
archive=crates/ambiguity_c/out/libambiguity_c.a
if [ ! -f $archive ]; then
    echo "shared.sh: $archive is not there: build it with 'rt lib' in crates/ambiguity_c" >&2
    exit 1
fi
mkdir -p target/shared
cc -shared -fPIC -O2 -Wall -Wextra -Werror -I bindings/c bindings/c/shared.c -Wl,--whole-archive $archive -Wl,--no-whole-archive \
    -Wl,-soname,libambiguity.so."${version%%.*}" -o target/shared/libambiguity.so."$version"
ln -sf libambiguity.so."$version" target/shared/libambiguity.so."${version%%.*}"
ln -sf libambiguity.so."${version%%.*}" target/shared/libambiguity.so
