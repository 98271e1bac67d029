# Makes the room: a mount namespace in which overlays cover the machine's folders, so that tests of the office leave the machine unchanged. The room
# has the programs and the files of deploy/ and web/ at the paths where the package installs them. The commands of docs/INSTALL.md under "The clerks"
# make the clerk anna. ben is also a clerk, and carl is not a clerk. The room's `systemctl` knows only the command `kill`, which ends a server of the
# service manager in tests/lib/office_room.py. Needs root. If `room_net` is set and not empty, the room also has a separate network namespace. If a
# caller runs this script and doesn't source it, the script runs the command in its arguments. The variable ROOM then has the path of the room's
# folder.
set -eu
PATH=/usr/sbin:/sbin:$PATH
[ "$(id -u)" = 0 ] || { echo "$0 needs root, for other users and for temporary overlays" >&2; exit 2; }
if [ -z "${OFFICE_ROOM-}" ]; then
    OFFICE_ROOM=yes exec unshare --mount ${room_net:+--net} --propagation private sh "$0" "$@"
fi
[ -z "${room_net-}" ] || ip link set lo up
. "$(dirname -- "$0")/../lib/serving.sh"
top=$(CDPATH='' cd -P -- "$here/../.." && pwd)

chmod 755 "$work"
# The kernel removes the room's mounts when the last process in the room ends.
room=/mnt
mount -t tmpfs tmpfs "$room"

# over FOLDER: covers the folder with an overlay, so that everything that a program writes to the folder stays in the room.
over() {
    called=$(echo "$1" | tr / _)
    mkdir "$room/$called" "$room/$called.work"
    mount -t overlay overlay -o "lowerdir=$1,upperdir=$room/$called,workdir=$room/$called.work" "$1"
}
for folder in /usr/bin /usr/lib /usr/share /etc /var/lib /home /root; do over "$folder"; done
# Folders for systemd's journal and state, and for temporary copies of a club.
for folder in /run/systemd /run/log /dev/shm; do
    mkdir -p "$folder"
    mount -t tmpfs tmpfs "$folder"
done
[ ! -d /var/log/journal ] || mount -t tmpfs tmpfs /var/log/journal
rm -f /etc/sudoers.d/*
systemd-sysusers "$top/deploy/clubdesk.sysusers" 2>/dev/null
for user in ben carl; do useradd -m "$user"; done
usermod -a -G office ben
install -m 755 "$desk" /usr/bin/clubdesk
install -m 755 "$tool" /usr/bin/passtool
install -m 755 "$top/deploy/office" /usr/bin/office
install -D -m 644 -t /usr/lib/clubdesk/club_office "$top"/deploy/club_office/*.py
/usr/bin/python3 -m compileall -q /usr/lib/clubdesk/club_office
install -m 440 "$top/deploy/office.sudoers" /etc/sudoers.d/clubdesk-office
mkdir -p /usr/lib/clubdesk /usr/share/doc/clubdesk/examples /usr/share/clubdesk/web
install -m 755 "$top/deploy/clubdesk-setup" /usr/bin/clubdesk-setup
find "$top/deploy" -maxdepth 1 -type f -perm -100 ! -name office ! -name clubdesk-setup -exec install -m 755 -t /usr/lib/clubdesk {} +
install -m 644 -t /usr/share/doc/clubdesk/examples "$top"/deploy/*.conf "$top/deploy/Caddyfile"
"$top/bin/pages" --to /usr/share/clubdesk/web

# page_block HEADING: prints the command lines for root under this heading of docs/INSTALL.md. Omits lines that install Debian packages.
page_block() {
    awk -v heading="## $1" '
        /^## / { here = $0 == heading; next }
        here && /^```sh$/ { inside = 1; next }
        /^```$/ { inside = 0 }
        inside && !/^apt-get /' "$top/docs/INSTALL.md" "$top/docs/CARE.md"
}
page_block 'The clerks' >"$room/clerks"
[ -s "$room/clerks" ] || { echo "docs/INSTALL.md has no lines under 'The clerks'" >&2; exit 1; }
(cd "$top" && sh -e "$room/clerks") >/dev/null
install -d -m 755 /etc/clubdesk
install -d -o clubdesk -g clubdesk -m 700 /var/lib/clubdesk
mkdir "$room/services"
cat >"$room/systemctl" <<SYSTEMCTL
#!/bin/sh
# \`kill UNIT\`: ends the server that the manager runs under this name.
[ "\$1" = kill ] && [ -e "$room/services/\$2" ] && kill "\$(cat "$room/services/\$2")"
SYSTEMCTL
install -m 755 "$room/systemctl" /usr/bin/systemctl
case $0 in */office_room.sh) ROOM=$room "$@" ;; esac
