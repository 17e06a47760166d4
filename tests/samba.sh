#!/usr/bin/env bash
# Real servers: six Samba file servers and a Samba domain controller on loopback, and a host over host/python (host/samba/scenes.py), in network, mount and process
# namespaces that end with it, two minutes at most. Where it cannot run it says so in one line, and that counts neither as passed nor as failed.
#
# Debian's packages that are missing are installed with apt-get into an overlay of the file system below host/samba/target, once: the machine itself stays as it
# is. SAMBA=no leaves all of it out.
set -eu
cd "$(dirname "$0")/.."
repository=$PWD
packages="samba smbclient python3-impacket python3-samba samba-vfs-modules samba-ad-provision samba-dsdb-modules winbind libnss-wrapper"
layers=$repository/host/samba/target
log=$layers/install.log
skips() { echo "samba: not tried: $*"; exit 0; }
[ "${SAMBA:-}" != no ] || skips "SAMBA=no"
[ "$(id -u)" -eq 0 ] || skips "it needs root, for namespaces of its own"
[ -e /etc/debian_version ] || skips "it needs Debian's samba"
apart="unshare -mp --fork --kill-child --propagation private"
$apart -n true 2>/dev/null || skips "namespaces cannot be made here"
tests/library dfsc
mkdir -p "$layers"
cc -shared -o "$layers/libdfsc.so" -Wl,--whole-archive target/staticlib/libdfsc.a -Wl,--no-whole-archive

# a root with the packages: that of the machine, or an overlay over it, in a mount namespace
overlay() { # COMMAND..
    $apart ${net:+-n} bash -c '
        set -eu
        layers=$1 repository=$2 root=$1/root
        shift 2
        mount -t overlay overlay -o "lowerdir=/,upperdir=$layers/upper,workdir=$layers/work" "$root"
        mount -t proc proc "$root/proc"
        mount --rbind /dev "$root/dev"
        mount -t tmpfs tmpfs "$root/tmp"
        mount -t tmpfs tmpfs "$root/run"
        mkdir -p "$root$repository"
        mount --bind "$repository" "$root$repository"
        exec chroot "$root" "$@"' overlay "$layers" "$repository" "$@"
}
machine() { $apart -n --mount-proc bash -c 'mount -t tmpfs tmpfs /tmp && exec "$@"' machine "$@"; }
inside=overlay net=
if dpkg-query -W -f '${Status}\n' $packages 2>/dev/null | grep -c ' installed$' | grep -qx "$(wc -w <<<"$packages")"; then
    inside=machine
elif [ ! -e "$layers/installed" ]; then
    command -v apt-get >/dev/null || skips "there is no apt-get"
    rm -rf "$layers/upper" "$layers/work"
    mkdir -p "$layers/upper" "$layers/work" "$layers/root"
    overlay true >"$log" 2>&1 || skips "no overlay file system can be mounted here"
    echo "samba: installs $packages below host/samba/target"
    # no server is started by the packages themselves
    overlay timeout 300 sh -c '
        set -eu
        export DEBIAN_FRONTEND=noninteractive
        printf "#!/bin/sh\nexit 101\n" >/usr/sbin/policy-rc.d
        chmod 755 /usr/sbin/policy-rc.d
        apt-get -qq -o Acquire::Retries=0 -o Acquire::http::Timeout=10 update
        apt-get -qq -y --no-install-recommends -o Dpkg::Use-Pty=0 install "$@"
        apt-get clean' install $packages >"$log" 2>&1 </dev/null || skips "the packages could not be installed (host/samba/target/install.log)"
    : >"$layers/installed"
fi
net=yes
status=0
$inside timeout --kill-after=5 120 sh -c 'mkdir /tmp/servers && DFSC_SO=$1/libdfsc.so exec /usr/bin/python3 -B "$2/host/samba/scenes.py" /tmp/servers' scenes "$layers" "$repository" || status=$?
case $status in
0) ;;
124 | 137) echo "samba: not done after two minutes"; exit 1 ;;
*) exit 1 ;;
esac
