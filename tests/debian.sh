#!/bin/sh
# Tries the packages for Debian: they are built from the program and the archive, lintian finds no error in them, and they
# are installed, used and removed.
#
#     tests/debian.sh [PROGRAM]
#
# The archive is that of the crate poincare_c, or what ARCHIVE names. What the script needs and this machine lacks is said, and
# counts as neither passed nor failed. Installing is tried as root only, over a copy of the system's folders that is seen
# by this script alone; so nothing is installed when it ends.
root=$(cd "$(dirname "$0")/.." && pwd)
PROGRAM=$(realpath "${1:-$root/crates/poincare/out/poincare}")
ARCHIVE=${ARCHIVE:-$root/crates/poincare_c/out/libpoincare_c.a}
export PROGRAM ARCHIVE
. "$root/tests/tried.sh"
unset POINCARE_LIBRARY PYTHONPATH

packages_are_built() {
    mkdir -p "$folder/build/poincare/docs" &&
        cp -r "$root/c" "$root/python" "$root/debian" "$root/VERSION" "$root/README.md" "$folder/build/poincare" &&
        cp "$root/docs/poincare.1" "$folder/build/poincare/docs" && rm -rf "$folder"/build/poincare/*/out* &&
        cd "$folder/build/poincare" && dpkg-buildpackage -us -uc && cd .. &&
        ls poincare_"$version"_*.deb libpoincare1_"$version"_*.deb libpoincare-dev_"$version"_*.deb python3-poincare_"$version"_all.deb
}

has_no_lintian_error() {
    lintian --allow-root --fail-on error "$folder/build"/*.changes
}

# beside COMMAND..: runs it where /usr, /etc and /var are copies that it may change
beside() {
    unshare -m sh -e -c '
        mount --make-rprivate / && mount -t tmpfs none "$0"
        for it in usr etc var; do
            mkdir "$0/$it" "$0/$it.work"
            mount -t overlay none -o "lowerdir=/$it,upperdir=$0/$it,workdir=$0/$it.work" "/$it"
        done
        exec "$@"' "$folder/beside" "$@"
}

# What is installed answers, is found by a compiler and by Python, and goes away. The folder of the packages is /mnt here.
use='
    set -e
    dpkg -i /mnt/*.deb
    cd /
    poincare <"$0/tests/hundred-lines.txt" | diff - "$0/tests/hundred-answers.txt"
    [ -e /usr/share/man/man1/poincare.1.gz ]
    gcc -o /var/example "$0/c/example.c" $(pkg-config --cflags --libs poincare) -pthread
    /var/example | diff - "$0/tests/c/example.txt"
    /usr/bin/python3 -m poincare <"$0/tests/hundred-lines.txt" | diff - "$0/tests/hundred-answers.txt"
    [ "$(/usr/bin/python3 -c "import poincare; print(poincare.__version__)")" = "$(cat "$0/VERSION")" ]
    dpkg --purge python3-poincare libpoincare-dev libpoincare1 poincare
    [ -z "$(dpkg-query -W -f "\${Status}" poincare libpoincare1 libpoincare-dev python3-poincare 2>/dev/null)" ]
    [ ! -e /usr/bin/poincare ] && [ ! -e /usr/include/poincare.h ] && ! ldconfig -p | grep -q libpoincare
    ! /usr/bin/python3 -c "import poincare" 2>/dev/null
'

are_installed_and_removed() {
    mkdir "$folder/beside" "$folder/packages" && cp "$folder"/build/*.deb "$folder/packages" && rm -f "$folder"/packages/*-dbgsym_* &&
        beside sh -e -c 'mount --bind "$0" /mnt; exec sh -c "$1" "$2"' "$folder/packages" "$use" "$root"
}

if ! has dpkg-buildpackage || ! has dh || ! has dh_python3; then
    lacks "all of it" "dpkg-dev, debhelper and dh-python"
    ends
fi
if [ ! -x "$PROGRAM" ] || [ ! -f "$ARCHIVE" ]; then
    lacks "all of it" "the program $PROGRAM and the archive $ARCHIVE"
    ends
fi
version=$(cat "$root/VERSION")
tried "the packages are built" packages_are_built
if has lintian; then
    tried "lintian" has_no_lintian_error
else
    lacks "faults of the packages" "lintian"
fi
if [ "$(id -u)" = 0 ] && has pkg-config && unshare -m true 2>/dev/null && grep -q overlay /proc/filesystems; then
    tried "installed and removed" are_installed_and_removed
else
    lacks "installing" "root, pkg-config, and folders of its own by unshare and overlay"
fi
ends
