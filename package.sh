#!/bin/sh
# Makes a package for Debian of what install.sh installs:
#
#     sh package.sh [FOLDER]
#
# FOLDER is where it is put; else it is put here. DEBFULLNAME and DEBEMAIL, where they are set, are told as its maintainer.
set -eu
umask 022
top=$(dirname "$(readlink -f "$0")")
to=${1:-.}

stop() {
    echo "package: $*" >&2
    exit 1
}

[ "$#" -le 1 ] || stop "takes one folder at most"
[ -d "$to" ] || stop "there is no folder $to"
for tool in cc dpkg dpkg-deb gzip objdump; do
    command -v "$tool" >/dev/null || stop "the command $tool is needed"
done
multiarch=$(cc -print-multiarch 2>/dev/null) || multiarch=
[ -n "$multiarch" ] || stop "cc knows no folder of libraries for this machine (cc -print-multiarch)"
read -r version <"$top/VERSION"
machine=$(dpkg --print-architecture)

work=$(mktemp -d)
trap 'rm -rf "$work"' EXIT
trap 'exit 130' INT TERM HUP
tree=$work/tree
PREFIX=/usr DESTDIR=$tree LIBDIR=/usr/lib/$multiarch PYTHONDIR=/usr/lib/python3/dist-packages sh "$top/install.sh"
gzip -9n "$tree/usr/share/man/man1/furnacelime.1"

# The oldest C library that has all that is called.
libc=$(objdump -T "$tree/usr/libexec/furnacelime/furnacelime" "$tree/usr/lib/$multiarch"/libfurnacelime.so.*.*.* |
    sed -n 's/.*GLIBC_\([0-9.]*\).*/\1/p' | sort -V | tail -n 1)
mkdir "$tree/DEBIAN"
cat >"$tree/DEBIAN/control" <<END
Package: furnacelime
Version: $version
Architecture: $machine
Maintainer: ${DEBFULLNAME:-unknown} <${DEBEMAIL:-unknown@localhost}>
Depends: libc6 (>= $libc)
Suggests: python3, parallel
Section: utils
Priority: optional
Installed-Size: $(du -sk "$tree/usr" | cut -f 1)
Description: proved schedules of periodic tasks on several processors
 Schedules periodic tasks on several processors by RUN, the optimal algorithm
 of Regnier, Lima, Massa, Levin and Brandt; executes, checks and draws
 schedules. What it writes is proved. With a library for C and Python.
END
echo 'activate-noawait ldconfig' >"$tree/DEBIAN/triggers"
(cd "$tree" && find usr -type f -exec md5sum {} +) >"$tree/DEBIAN/md5sums"
chmod -R u=rwX,go=rX "$tree"
dpkg-deb --root-owner-group --build "$tree" "$work/package.deb" >&2
mv "$work/package.deb" "$to/furnacelime_${version}_$machine.deb"
echo "package: $to/furnacelime_${version}_$machine.deb" >&2
