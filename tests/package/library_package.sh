#!/bin/sh
# `bin/package_library` makes the same bytes in two runs. Programs in C and Python can use the packages in a fresh Debian.
#
# Programs in C and in Python read, narrow and verify the pass of README.
#
# lintian finds no fault in the packages. debootstrap makes a Debian with a C compiler, pkg-config and Python. In this Debian, the test installs the
# packages with dpkg, in a chroot without a network. The programs are the examples in libclubpass-dev and python3-clubpass. The C example has at most
# 30 lines, and is also linked statically. The Python example has at most ten lines. The test unpacks the wheel and imports it without an installed
# package. When dpkg removes the packages, none of their files stays. The test needs root and a Debian mirror. With DEBIAN=FOLDER, the test copies the
# Debian in this folder, and needs no mirror.
# pytestmark = [mark.package, mark.root, mark.needs("passtool pass_c"),
#     mark.wants("debootstrap lintian dpkg-dev xz-utils util-linux python3-build python3-setuptools python3-wheel")]
# shellcheck disable=SC2016 # a shell of the fresh Debian reads the quoted text
set -eu
here=$(CDPATH='' cd -P -- "$(dirname -- "$0")" && pwd)
[ "$(id -u)" = 0 ] || { echo "$0 needs root, for a fresh Debian" >&2; exit 2; }
PATH=/usr/sbin:/sbin:$PATH
work=$(mktemp -d)
trap 'rm -rf --one-file-system "$work"' EXIT
. "$here/../lib/checks.sh"
cd "$work"
version=$("$here/../../bin/version")

holds 'the packages are made' "$here/../../bin/package_library" first
holds 'the packages are made again' "$here/../../bin/package_library" second
same 'bytes of both runs' "$(cat first/LIBRARY_SHA256SUMS)" "$(cat second/LIBRARY_SHA256SUMS)"
(cd first && sha256sum --quiet -c LIBRARY_SHA256SUMS)
chmod -R go+rX "$work"
holds 'lintian' setpriv --reuid=65534 --regid=65534 --clear-groups env HOME=/ lintian --fail-on error,warning,info first/*.deb
same 'the output of lintian' '' "$(cat told)"

root=$work/debian
if [ -n "${DEBIAN-}" ]; then
    cp -a "$DEBIAN" "$root"
else
    debootstrap --variant=minbase --include=gcc,libc6-dev,pkg-config,python3 bookworm "$root" >debootstrap.log 2>&1 || fail "debootstrap: $(tail debootstrap.log)"
fi
mkdir "$root/root/wheel"
cp first/*.deb "$root/root/"
cp first/*.whl "$root/root/wheel/"
text=$(grep -o 'AgEJ[A-Za-z0-9_-]*' "$here/../../README.md" | head -n 1)
lent=$("${PASSTOOL:-$here/../../bin/passtool}" narrow 'kind = court' <<PASS
$text
PASS
)
inside() { unshare --net chroot "$root" env -i PATH=/usr/sbin:/usr/bin:/sbin:/bin HOME=/root LC_ALL=C.UTF-8 DEBIAN_FRONTEND=noninteractive "$@"; }

before=$(inside find /usr /etc ! -name '*.pyc' ! -path '*__pycache__*' ! -path '/etc/ld.so.cache' | sort)
holds 'the wheel' inside sh -c 'cd /root/wheel && python3 -m zipfile -e *.whl .'
holds 'Python with the wheel' inside sh -c "PYTHONPATH=/root/wheel python3 -c 'import clubpass; print(clubpass.Pass.parse(\"$text\").narrow(\"kind = court\"))'"
same 'Python with the wheel' "$lent" "$(cat told)"

holds 'dpkg' inside sh -c 'dpkg -i /root/*.deb'
same 'versions' "$version $version $version" "$(inside dpkg-query -W -f '${Version} ' libclubpass0 libclubpass-dev python3-clubpass | sed 's/ $//')"
examples=/usr/share/doc/libclubpass-dev/examples
[ "$(wc -l <"$root$examples/c/lend.c")" -le 30 ] || fail 'the program in C has more than 30 lines'
[ "$(grep -vcE '^ *$' "$root/usr/share/doc/python3-clubpass/examples/lend.py")" -le 10 ] || fail 'the program in Python has more than ten lines'
holds 'gcc' inside sh -c "gcc -Wall -Wextra -Werror -o /root/lend $examples/c/lend.c \$(pkg-config --cflags --libs clubpass)"
holds 'gcc, static' inside sh -c "gcc -static -o /root/lend-static $examples/c/lend.c -lclubpass"
for program in /root/lend /root/lend-static 'python3 /usr/share/doc/python3-clubpass/examples/lend.py'; do
    holds "$program" inside sh -c "echo $text | $program"
    same "$program" "$lent
signed" "$(cat told)"
done
holds 'ldd' inside ldd /root/lend
grep -q '/libclubpass.so.0' told || fail "the program isn't linked to the library: $(cat told)"

holds 'dpkg removes the packages' inside dpkg --purge python3-clubpass libclubpass-dev libclubpass0
same 'the files after the removal' "$before" "$(inside find /usr /etc ! -name '*.pyc' ! -path '*__pycache__*' ! -path '/etc/ld.so.cache' | sort)"
echo "$checks checks hold"
