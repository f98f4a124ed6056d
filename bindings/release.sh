#!/bin/sh
# Makes a folder that holds all that users need, of what has been built: tools, archive, shared library, headers, man pages, the
# second program, the module for Python, and the sums of all files.
#
#     sh judge --release FOLDER
#
# FOLDER gets yisaronu-VERSION-linux-x86-64; what is in it can be moved anywhere.
set -eu
if [ $# -ne 1 ]; then
    echo "usage: sh judge --release FOLDER" >&2
    exit 2
fi
mkdir -p "$1"
folder=$(cd "$1" && pwd)
cd "$(dirname "$0")/.."

name=yisaronu-$(cat VERSION)-linux-x86-64
to=$folder/$name
if [ -e "$to" ]; then
    echo "release.sh: $to is there already" >&2
    exit 1
fi
sh bindings/shared.sh
DESTDIR=$folder PREFIX=/$name sh bindings/install.sh
sed -i 's|^prefix=.*|prefix=${pcfiledir}/../..|' "$to/lib/pkgconfig/ambiguity.pc"
mkdir "$to/second" "$to/python" "$to/docs"
for file in second/*.py; do
    case $file in
    second/test_*) ;;
    *) cp "$file" "$to/second/" ;;
    esac
done
cp bindings/python/ambiguity.py "$to/python/"
cp docs/MANUAL.md "$to/docs/"
cp judge VERSION LICENSE README.md "$to/"
(cd "$to" && find . -type f ! -name SHA256SUMS | LC_ALL=C sort | xargs sha256sum >SHA256SUMS)
echo "$1/$name"
