#!/bin/sh
# install.sh PREFIX: the static library and the shared object, the headers, a pkg-config file, the module for Python, the program `walk` and its man page below
# PREFIX; with DESTDIR set below $DESTDIR/PREFIX, for packages. Nothing is built but the shared object: first `tests/library dfsc && tests/program walk`.
set -eu
[ "$#" -eq 1 ] && [ -n "$1" ] || { echo "usage: sh install.sh PREFIX" >&2; exit 2; }
case $1 in
/*) prefix=${1%/} ;;
*) prefix=$PWD/${1%/} ;;
esac
cd "$(dirname "$0")"
library=target/staticlib/libdfsc.a
for f in "$library" target/bin/walk; do
    [ -e "$f" ] || { echo "install.sh: there is no $f; build it with: tests/library dfsc && tests/program walk" >&2; exit 1; }
done
version=$(sed -n 's/^#define DFSC_VERSION_TEXT "\(.*\)"$/\1/p' include/dfsc.h)
major=${version%%.*}
to=${DESTDIR:-}$prefix
mkdir -p "$to/include" "$to/lib/pkgconfig" "$to/lib/python" "$to/bin" "$to/share/man/man1"
put() { # MODE FILE TO: in place of what stands there, also where that is in use
    cp "$2" "$3.new"
    chmod "$1" "$3.new"
    mv "$3.new" "$3"
}
put 644 include/dfsc.h "$to/include/dfsc.h"
put 644 include/dfsc_host.h "$to/include/dfsc_host.h"
put 644 "$library" "$to/lib/libdfsc.a"
"${CC:-cc}" -shared -Wl,-soname,"libdfsc.so.$major" -Wl,-z,text -Wl,-z,defs -o "$to/lib/libdfsc.so.new" -Wl,--whole-archive "$library" -Wl,--no-whole-archive
chmod 755 "$to/lib/libdfsc.so.new"
mv "$to/lib/libdfsc.so.new" "$to/lib/libdfsc.so.$version"
ln -sf "libdfsc.so.$version" "$to/lib/libdfsc.so.$major"
ln -sf "libdfsc.so.$major" "$to/lib/libdfsc.so"
put 644 host/python/dfsc.py "$to/lib/python/dfsc.py"
put 755 target/bin/walk "$to/bin/walk"
put 644 docs/walk.1 "$to/share/man/man1/walk.1"
cat >"$to/lib/pkgconfig/dfsc.pc.new" <<P
prefix=$prefix
includedir=\${prefix}/include
libdir=\${prefix}/lib

Name: dfsc
Description: DFS path resolution (MS-DFSC), proved
Version: $version
Cflags: -I\${includedir}
Libs: -L\${libdir} -ldfsc
P
mv "$to/lib/pkgconfig/dfsc.pc.new" "$to/lib/pkgconfig/dfsc.pc"
echo "installed below $to: dfsc $version"
