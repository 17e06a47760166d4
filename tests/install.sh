#!/usr/bin/env bash
# install.sh: what stands below a prefix is all that a program in C or Python needs, found by pkg-config; the man page, and its example.
set -eu
cd "$(dirname "$0")/.."
folder=$(mktemp -d)
trap 'rm -rf "$folder"' EXIT
fails() { echo "install: $*"; exit 1; }
tests/library dfsc
tests/program walk

if (cd "$folder" && sh "$OLDPWD/install.sh" >/dev/null 2>&1); then fails "no prefix, and no error"; fi
(cd "$folder" && sh "$OLDPWD/install.sh" prefix) # a relative one
sh install.sh "$folder/prefix" >/dev/null        # once more over it
p=$folder/prefix

# a program is built far from the repository, by what pkg-config says alone
mkdir "$folder/far"
cp host/examples/resolve.c host/examples/example.h host/c/types.c "$folder/far"
export PKG_CONFIG_PATH=$p/lib/pkgconfig
if command -v pkg-config >/dev/null; then
    said() { pkg-config "$@" dfsc; }
else
    echo "install: there is no pkg-config on this machine: dfsc.pc is read by sed"
    said() { # --cflags, --libs or --modversion
        local key=Version
        case $1 in --cflags) key=Cflags ;; --libs) key=Libs ;; esac
        sed -n "s/^$key: //p" "$p/lib/pkgconfig/dfsc.pc" | sed "s|\${includedir}|$p/include|; s|\${libdir}|$p/lib|"
    }
fi
[ "$(said --modversion)" = "$(sed -n 's/^version = "\(.*\)"/\1/p' host/dfsc/Cargo.toml)" ] || fails "the version is $(said --modversion)"
for e in resolve types; do
    (cd "$folder/far" && cc -O2 -Wall -Werror $(said --cflags) "$e.c" -o "$e" $(said --libs))
    LD_LIBRARY_PATH=$p/lib "$folder/far/$e" >"$folder/$e.out" || fails "$e fails"
done
diff host/examples/resolve.out "$folder/resolve.out"
LD_LIBRARY_PATH=$p/lib ldd "$folder/far/resolve" | grep -q "libdfsc.so.0 => $p/lib/libdfsc.so.0" || fails "the program does not use the shared object"
# and with the static library
(cd "$folder/far" && cc -O2 $(said --cflags) resolve.c -o static "$p/lib/libdfsc.a")
"$folder/far/static" | diff host/examples/resolve.out -

# Python finds the module and the shared object
(cd "$folder/far" && LD_LIBRARY_PATH=$p/lib PYTHONPATH=$p/lib/python python3 -B -c 'import dfsc; assert dfsc.domain_request() == b"\4\0\0\0"')

# the program, and its man page: the example there is the one that is tried elsewhere
"$p/bin/walk" <host/examples/link2.in | diff host/examples/link2.out -
page=$p/share/man/man1/walk.1
for f in crates/walk/stdin crates/walk/stdout; do
    sed 's/\\/\\e/g' "$f" >"$folder/lines"
    python3 -c 'import sys; sys.exit(open(sys.argv[1]).read() not in open(sys.argv[2]).read())' "$folder/lines" "$page" || fails "the example of $page is not $f"
done
if command -v man >/dev/null && command -v groff >/dev/null; then
    man --warnings -l "$page" 2>&1 >/dev/null | grep . && fails "warnings of $page"
    man -l "$page" | col -b | grep -q 'path=\\\\files\\s1' || fails "the example of $page is not shown"
fi
# for packages
DESTDIR=$folder/root sh install.sh /usr >/dev/null
grep -q '^prefix=/usr$' "$folder/root/usr/lib/pkgconfig/dfsc.pc" || fails "the prefix with DESTDIR"
(cd "$p" && find . ! -type d | sort) >"$folder/files"
(cd "$folder/root/usr" && find . ! -type d | sort) | diff "$folder/files" -
echo "install: $(wc -l <"$folder/files") files, programs in C and Python built and run by pkg-config's words"
