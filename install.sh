#!/bin/sh
# Installs the program, the library for C and Python, and what belongs to them:
#
#     PREFIX=/usr/local DESTDIR= sh install.sh
#
# PREFIX is where it is to stand, DESTDIR a folder that is put in front of it for the time being, as for a package; LIBDIR (PREFIX/lib) and PYTHONDIR
# (where python3 looks for modules below PREFIX, else PREFIX/lib/python3/dist-packages) may be given too. What isn't built yet is proved and built first
# (build.sh); where a source is newer than what is built nothing is installed, unless AS_BUILT is set. What is installed needs the C library of the system
# and sh, and neither the kit nor this repository. Nothing is written where something that is needed is missing.
set -eu
umask 022
top=$(dirname "$(readlink -f "$0")")
PREFIX=${PREFIX:-/usr/local}
LIBDIR=${LIBDIR:-$PREFIX/lib}
# Where Python looks for modules below PREFIX; Debian's has other folders below /usr/local than below /usr.
searched=$(python3 -c 'import site, sys
print(next((it for it in site.getsitepackages() if it.startswith(sys.argv[1] + "/lib/")), ""))' "$PREFIX" 2>/dev/null) || searched=
PYTHONDIR=${PYTHONDIR:-${searched:-$PREFIX/lib/python3/dist-packages}}
DESTDIR=${DESTDIR:-}

stop() {
    echo "install: $*" >&2
    exit 1
}

[ "$#" -eq 0 ] || stop "takes no words: PREFIX=/usr/local DESTDIR= sh install.sh"
for folder in "$PREFIX" "$LIBDIR" "$PYTHONDIR"; do
    case $folder in
    *[[:space:]]*) stop "a folder without blanks is needed, and $folder isn't one" ;;
    /*) ;;
    *) stop "a folder from / on is needed, and $folder isn't one" ;;
    esac
done
for tool in ar cc install rt; do
    command -v "$tool" >/dev/null || stop "the command $tool is needed"
done
kit=$(dirname "$(dirname "$(readlink -f "$(command -v rt)")")")
memory=$kit/c/liblibc_c.a
[ -f "$memory" ] || stop "the kit has no $memory"
read -r version <"$top/VERSION"
major=${version%%.*}

program=$top/crates/furnacelime/out/furnacelime
archive=$top/crates/furnacelime_c/out/libfurnacelime_c.a
[ -x "$program" ] || sh "$top/build.sh"
[ -f "$archive" ] || sh "$top/build.sh" furnacelime_c
for made in "$program" "$archive"; do
    [ -z "${AS_BUILT-}" ] || break
    newer=$(find "$top/crates.txt" "$top"/crates/*/src "$top"/crates/*/specs -newer "$made" -type f -print 2>/dev/null | head -n 1)
    [ -z "$newer" ] || stop "$newer is newer than $made; sh build.sh and sh build.sh furnacelime_c build them anew"
done

# All is made in a folder of its own, and copied when it is whole.
work=$(mktemp -d)
trap 'rm -rf "$work"' EXIT
trap 'exit 130' INT TERM HUP
tree=$work/tree

put() { install -D -m "$1" "$2" "$tree$3"; }

put 755 "$program" "$PREFIX/libexec/furnacelime/furnacelime"
put 644 "$top/VERSION" "$PREFIX/libexec/furnacelime/VERSION"
put 755 "$top/furnacelime" "$PREFIX/bin/furnacelime"
put 644 "$top/docs/furnacelime.1" "$PREFIX/share/man/man1/furnacelime.1"
put 644 "$top/docs/furnacelime.bash" "$PREFIX/share/bash-completion/completions/furnacelime"
put 644 "$top/include/furnacelime.h" "$PREFIX/include/furnacelime.h"
put 644 "$top/include/furnacelime_exec.h" "$PREFIX/include/furnacelime_exec.h"
put 644 "$top/examples/python/furnacelime.py" "$PYTHONDIR/furnacelime.py"

# The libraries hold the kit's calls of malloc and free; the shared one shows what the header declares, and nothing else.
mkdir -p "$tree$LIBDIR"
printf 'create %s\naddlib %s\naddlib %s\nsave\nend\n' "$work/libfurnacelime.a" "$archive" "$memory" | ar -M
put 644 "$work/libfurnacelime.a" "$LIBDIR/libfurnacelime.a"
echo '{ global: furnacelime_*; local: *; };' >"$work/exports"
cc -shared -o "$work/shared" -Wl,-soname,"libfurnacelime.so.$major" -Wl,--version-script="$work/exports" -Wl,-z,defs -Wl,-s \
    -Wl,--whole-archive "$work/libfurnacelime.a" -Wl,--no-whole-archive
put 644 "$work/shared" "$LIBDIR/libfurnacelime.so.$version"
ln -s "libfurnacelime.so.$version" "$tree$LIBDIR/libfurnacelime.so.$major"
ln -s "libfurnacelime.so.$major" "$tree$LIBDIR/libfurnacelime.so"
cat >"$work/furnacelime.pc" <<END
prefix=$PREFIX
libdir=$LIBDIR
includedir=\${prefix}/include

Name: furnacelime
Description: proved schedules of periodic tasks on several processors
Version: $version
Libs: -L\${libdir} -lfurnacelime
Cflags: -I\${includedir}
END
put 644 "$work/furnacelime.pc" "$LIBDIR/pkgconfig/furnacelime.pc"

# Documents and examples. The pages stand in one folder, so their links lose the folders of the repository.
share=$PREFIX/share/doc/furnacelime
for page in "$top/README.md" "$top/CHANGELOG.md" "$top/CONTRIBUTING.md" "$top"/docs/*.md; do
    sed 's|](docs/|](|g; s|](\.\./|](|g' "$page" >"$work/page"
    put 644 "$work/page" "$share/${page##*/}"
done
put 644 "$top/bench/README.md" "$share/bench/README.md"
for picture in "$top"/docs/pictures/*; do
    put 644 "$picture" "$share/pictures/${picture##*/}"
done
(cd "$top/examples" && find . -type f ! -name '*.pyc' ! -name '*.so' ! -name try.sh ! -name furnacelime.py) | while read -r file; do
    mode=644
    [ ! -x "$top/examples/$file" ] || mode=755
    put "$mode" "$top/examples/$file" "$share/examples/${file#./}"
done

if ! { mkdir -p "$DESTDIR/" && cp -R "$tree/." "$DESTDIR/"; }; then
    stop "$DESTDIR$PREFIX can't be written"
fi
echo "install: version $version stands in $DESTDIR$PREFIX" >&2
[ -n "$DESTDIR" ] || echo "install: ldconfig makes the library known; the module for Python stands in $PYTHONDIR" >&2
