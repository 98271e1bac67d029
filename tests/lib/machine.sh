# Functions for tests that boot a fresh Debian with systemd-nspawn. The functions make the Debian system, run commands in it, and read root's command
# lines in docs/INSTALL.md and docs/CARE.md. This file sources serving.sh and checks.sh. Needs root.
. "$(dirname -- "$0")/../lib/serving.sh"
[ "$(id -u)" = 0 ] || { echo "$0 needs root, for a fresh Debian" >&2; exit 2; }
top=$(CDPATH='' cd -P -- "$here/../.." && pwd)
PATH=/usr/sbin:/sbin:$PATH
export CLUBDESK="$desk" PASSTOOL="$tool"
. "$here/../lib/checks.sh"
machine=

# debian FOLDER: makes a fresh Debian system. If the variable DEBIAN names a folder, copies the system from that folder instead. apt-get in this
# system asks no questions.
debian() {
    if [ -n "${DEBIAN-}" ]; then cp -a "$DEBIAN" "$1"; else
        debootstrap --variant=minbase --include=systemd,systemd-sysv bookworm "$1" >debootstrap.log 2>&1 || fail "debootstrap: $(tail debootstrap.log)"
    fi
    echo 'APT::Get::Assume-Yes "true";' >"$1/etc/apt/apt.conf.d/99yes"
}

# start FOLDER WORD..: boots the Debian system in a folder. The words are additional options of systemd-nspawn. Sets `root` to the path of the folder,
# and `machine` to the process id of systemd-nspawn.
start() {
    root=$work/$1
    shift
    systemd-nspawn -q -D "$root" -M "${root##*/}-$$" --register=no --keep-unit --link-journal=no "$@" --boot >console 2>&1 </dev/null &
    machine=$!
    leader=
    soon 90 "it doesn't boot" is_up
}
is_up() {
    leader=$(pgrep -P "$machine" | head -n 1)
    [ -n "$leader" ] || return 1
    inside systemctl is-system-running >state 2>&1 || grep -q degraded state || { cat state; tail console; return 1; }
}

# inside COMMAND..: runs a command in the running machine.
inside() { nsenter -t "$leader" -a -- env -i PATH=/usr/sbin:/usr/bin:/sbin:/bin HOME=/root LC_ALL=C.UTF-8 DEBIAN_FRONTEND=noninteractive "$@"; }
# offline FOLDER COMMAND..: runs a command in a system that isn't booted, with the host's network.
offline() {
    folder=$1
    shift
    systemd-nspawn -q -D "$folder" --register=no --keep-unit --pipe -E DEBIAN_FRONTEND=noninteractive "$@"
}

# lines_for_root PAGE ..: writes the pages' command lines for root to the file `running`. Each line begins with the heading of its section and a tab.
lines_for_root() {
    awk '
        /^```/ { if (inside) inside = 0; else if ($0 == "```sh" && !other) inside = 1; else other = !other; next }
        inside { print title "\t" $0; next }
        !other && /^#+ / { title = $0; sub(/^#+ /, "", title) }' "$@" >running
}
# blocks HEADING: prints the command lines for root in a section, and adds the heading to the file `given`.
blocks() {
    echo "$1" >>given
    awk -F '\t' -v heading="$1" '$1 == heading { print substr($0, length($1) + 2); found = 1 } END { exit !found }' running ||
        fail "the pages have no lines for root in '$1'"
}
# gives WHAT: reads command lines from standard input, and runs them in the machine as root. Each line must succeed.
gives() {
    checks=$((checks + 1))
    { echo 'set -e; cd /root'; cat; } >"$root/root/lines"
    inside sh /root/lines >told 2>&1 </dev/null || fail "the pages, $1: $(tail -n 30 told)"
}
