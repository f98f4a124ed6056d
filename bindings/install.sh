#!/bin/sh
# Installs the archive, the headers, the files for pkg-config and CMake, the programs and their man pages.
#
#     PREFIX=/usr/local DESTDIR= sh bindings/install.sh
#
# PREFIX is where the files will be used, a path from the root; DESTDIR is a folder that is put before it, for packagers. Both may
# be left out. The archive and the tools must have been built; the program ambig and the shared library are left out if they have
# not. bindings/README.md says how each is built.
set -eu
came_from=$PWD
cd "$(dirname "$0")/.."

fail() {
    echo "install.sh: $1" >&2
    exit 1
}

line_break='
'
prefix=${PREFIX:-/usr/local}
case $prefix in
*"$line_break"*) fail "PREFIX has a line break" ;;
/*) ;;
*) fail "PREFIX is '$prefix': a path from the root is needed, as /usr/local" ;;
esac
image=${DESTDIR:-}
case $image in
"" | /*) ;;
*) image=$came_from/$image ;;
esac
to=$image$prefix
version=$(cat VERSION)
archive=crates/ambiguity_c/out/libambiguity_c.a
tools=target/rust/release

[ -f $archive ] || fail "$archive is not there: build it with 'rt lib' in crates/ambiguity_c"
for tool in ambig-certify ambig-check ambig-draft ambig-join ambig-plan ambig-trees; do
    [ -f $tools/$tool ] || fail "$tools/$tool is not there: build it with cargo, see bindings/README.md, Tools"
done

# A prefix may have letters that sed gives a meaning.
quoted=$(printf '%s' "$prefix" | sed 's/[&|\\]/\\&/g')

filled() { # filled FILE TARGET: a file with the version and the prefix put in
    sed -e "s|@VERSION@|$version|g" -e "s|@PREFIX@|$quoted|g" "$1" >"$2"
    chmod 644 "$2"
}

mkdir -p "$to/bin" "$to/lib/pkgconfig" "$to/lib/cmake/ambiguity" "$to/include" "$to/share/man/man1"
install -m 644 "$archive" "$to/lib/"
install -m 644 bindings/c/ambiguity.h bindings/c/ambiguity_cause_text.h bindings/c/ambiguity_shared.h "$to/include/"
install -m 755 $tools/ambig-certify $tools/ambig-check $tools/ambig-draft $tools/ambig-join $tools/ambig-plan $tools/ambig-trees "$to/bin/"
if [ -f crates/ambig/out/ambig ]; then
    install -m 755 crates/ambig/out/ambig "$to/bin/"
else
    echo "install.sh: crates/ambig/out/ambig is not there and is left out: 'rt run' in crates/ambig builds it" >&2
fi
shared=target/shared/libambiguity.so.$version
if [ -f "$shared" ]; then
    install -m 755 "$shared" "$to/lib/"
    ln -sf "libambiguity.so.$version" "$to/lib/libambiguity.so.${version%%.*}"
    ln -sf "libambiguity.so.${version%%.*}" "$to/lib/libambiguity.so"
else
    echo "install.sh: $shared is not there and is left out: 'sh bindings/shared.sh' builds it" >&2
fi
filled bindings/c/ambiguity.pc.in "$to/lib/pkgconfig/ambiguity.pc"
for part in config config-version; do
    filled "bindings/c/ambiguity-$part.cmake.in" "$to/lib/cmake/ambiguity/ambiguity-$part.cmake"
done
for page in bindings/man/*.1; do
    filled "$page" "$to/share/man/man1/$(basename "$page")"
done
