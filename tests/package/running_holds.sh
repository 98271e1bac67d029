#!/bin/sh
# The claims of docs/INSTALL.md and docs/CARE.md about installations, systemd units, copies and a full disk are true.
#
# A failed installation changes nothing. The systemd units allow each system call that the desk needs.
#
# The test checks the units with systemd's own tools. The test needs root.
# pytestmark = [mark.pages, mark.package, mark.root, mark.needs("clubdesk passtool"),
#     mark.wants("curl sqlite3 openssl strace systemd util-linux tzdata")]
set -eu
. "$(dirname -- "$0")/../lib/serving.sh"
[ "$(id -u)" = 0 ] || { echo "$0 needs root, for another user and a small disk" >&2; exit 2; }
top=$(CDPATH='' cd -P -- "$here/../.." && pwd)
PATH=/usr/sbin:/sbin:$PATH
. "$here/../lib/checks.sh"
disk=
# stop: ends the server.
stop() {
    kill "$server"
    wait "$server" 2>/dev/null || :
    server=
}
leave_all() {
    if [ -n "$disk" ]; then umount -l "$disk" 2>/dev/null || :; fi
    leave
}
trap leave_all EXIT

# asks METHOD PATH [BODY]: sends a request to $port with the pass in the file `pass`, and prints the reply and its status.
asks() {
    curl -sS --max-time 20 --noproxy '*' -w ' %{http_code}\n' -X "$1" -H "Authorization: Bearer $(cat pass)" ${3:+-d "$3"} "http://127.0.0.1:$port/$2"
}

# Makes a club with this name, a member with 10,000 points, and a court with 50 places. Writes the member's pass into the file `pass`.
make_club() {
    for words in "add-member $1 amy 99" "credit $1 amy 10000" "add-facility $1 court-1 court 50 1 0 24"; do
        # shellcheck disable=SC2086 # a command's words
        "$desk" $words >told
    done
    "$desk" add-key "$1" amy-1 amy "$(openssl rand -hex 32)" >pass
}

export CLUBDESK="$desk" PASSTOOL="$tool"

# ---- An installation.
sums() { (cd "$1" && find . -type f -exec sha256sum {} + | sort -k 2); }
"$top/bin/install" local >told
for file in clubdesk passtool; do
    cmp "$top/man/$file.1" "local/share/man/man1/$file.1"
    [ "$(stat -c %a "local/bin/$file")" = 755 ] || fail "local/bin/$file has the wrong mode"
done
version=$("$top/bin/version")
same 'the installed programs' "clubdesk $version passtool $version" "$(local/bin/clubdesk --version) $(local/bin/passtool --version)"

# refused WHAT WORDS..: checks that the installation fails with a line on standard error, and leaves the folder `local` unchanged.
refused() {
    what=$1
    shift
    sums local >before
    if "$@" >told 2>said; then fail "$what: the installation succeeds"; fi
    grep -q 'nothing was installed' said || fail "$what: $(cat said)"
    sums local | cmp - before || fail "$what: the folder changed"
    checks=$((checks + 1))
}
echo old >local/bin/clubdesk
chmod 755 "$work" local
# The user `nobody` perhaps can't read the repository, so the test copies the script bin/install.
cp "$top/bin/install" installing
refused 'no permission to write' runuser -u nobody -- sh "$work/installing" "$work/local"
refused 'no permission to make a folder' runuser -u nobody -- sh "$work/installing" "$work/other"
[ ! -e other ] || fail 'a refused installation made its folder'
refused 'files that become too large' sh -c "ulimit -f 1000; '$top/bin/install' local 2>&1 | cat >&2; exit 1"
mkdir local/share/man/man1/x && mv local/share/man/man1/passtool.1 local/share/man/man1/x && mv local/share/man/man1/x local/share/man/man1/passtool.1
refused 'a folder in place of a file' "$top/bin/install" local
rm -r local
if sh -c "ulimit -f 1000; '$top/bin/install' local" >told 2>&1; then fail 'the installation succeeds'; fi
[ ! -e local ] || fail 'a refused installation left its folders'
"$top/bin/install" local >told

# ---- The units. Each unit that starts a program is complete, restricts the program, and names existing files.
mkdir units
for file in "$top"/deploy/*.service "$top"/deploy/*.timer; do
    sed "s,/usr/bin/clubdesk,$PWD/local/bin/clubdesk,; s,/usr/lib/clubdesk/,$top/deploy/,; s,/etc/clubdesk/,$PWD/," "$file" >"units/${file##*/}"
done
sed "s,/var/lib/clubdesk/club,$PWD/state/club," "$top/deploy/club.conf" >club.conf
unit=units/clubdesk@.service
exposure=
for file in units/*; do
    holds "$file" env SYSTEMD_UNIT_PATH="$PWD/units:" systemd-analyze verify --man=no "$(echo "$file" | sed 's/@/@club/')"
    same "the output for $file" '' "$(cat told)"
    case $file in *report@* | *.timer) continue ;; esac
    found=$(systemd-analyze security --offline=yes --no-pager "$file" | sed -n 's/.*exposure level for [^:]*: \([0-9.]*\).*/\1/p')
    awk -v found="$found" 'BEGIN { exit !(found != "" && found < 1.5) }' || fail "the exposure of $file is $found"
    exposure="$exposure $found"
    checks=$((checks + 1))
done

# Runs the unit's command under strace, as the user nobody and with the unit's umask. The values come from the example configuration, except the port.
# The desk creates a missing club and answers requests. The unit must allow each system call in the trace.
# shellcheck source=/dev/null disable=SC2034 # its line has the variables of the configuration
command=$(. ./club.conf; PORT=0; eval "echo $(sed -n 's/^ExecStart=//p' "$unit")" | sed 's/--count 1000000/--count 2/')
mkdir -m 700 state
chown nobody state
mask=$(sed -n 's/^UMask=//p' "$unit")
runuser -u nobody -- sh -c "umask $mask; exec strace -f -o state/calls $command" >listening 2>log &
server=$!
read -r line <listening
port=${line##*:}
same 'the unit' '{"fault":4,"text":"no pass"} 401' "$(curl -sS -w ' %{http_code}' "http://127.0.0.1:$port/account")"
same 'the unit, again' '{"fault":2,"text":"no such path"} 404' "$(curl -sS -w ' %{http_code}' "http://127.0.0.1:$port/")"
finish
same "the lines of the desk's log" 2 "$(grep -cE '^20[0-9-]+T[0-9:]+ GET /[a-z]* 40[14] [0-9]+$' log)"
same "the modes of the desk's files" '600 600' "$(stat -c %a state/club state/club-wal | xargs)"
holds "the desk's system calls" /usr/bin/python3 "$here/running_holds.py" "$unit" state/calls
same "a zone's rule" CET-1CEST,M3.5.0,M10.5.0/3 "$(tail -n 1 /usr/share/zoneinfo/Europe/Berlin)"
grep -qxF "ZONE=$(tail -n 1 /usr/share/zoneinfo/Europe/Berlin)" club.conf || fail 'the example has another zone'

# ---- Copies while a client makes and cancels 900 bookings. During this time, the desk also copies its write-ahead log into the club's file.
make_club club
serve club 100000 2026-04-20T12:00
awk -v pass="$(cat pass)" -v port="$port" 'BEGIN { for (i = 1; i <= 900; i++) for (put = 1; put >= 0; put--) {
    if (i > 1 || !put) print "next"
    printf "request = %s\nheader = \"Authorization: Bearer %s\"\n", put ? "PUT" : "DELETE", pass
    if (put) print "data = \"{\\\"guests\\\":0}\""
    printf "write-out = \"\\n\"\nurl = http://127.0.0.1:%d/slots/court-1/2026-05-%02d/%02d/bookings/%d\n", port, 1 + i % 28, i % 24, i } }' >asked
{ curl -sS -K asked >answered && touch answered.all; } &
client=$!
copies=0
while [ ! -e answered.all ] && [ "$copies" -lt 500 ]; do
    copies=$((copies + 1))
    holds "copy $copies" "$top/deploy/back_up" club "copy.$copies"
    [ ! -e "copy.$copies-wal" ] || fail "copy $copies has a log"
    # The copy has the bookings 1 to N without a gap. All these bookings are cancelled, except perhaps one.
    same "the bookings of copy $copies" 1 \
        "$(sqlite3 "copy.$copies" 'SELECT count(*) = coalesce(max(number), 0) AND total(cancelled = 0) <= 1 FROM bookings')"
    same "the totals of copy $copies" '' "$(unsound "copy.$copies")"
    sqlite3 "copy.$copies" 'SELECT count(*) FROM bookings' >>counts
done
wait "$client" || { kill -0 "$server" || echo 'the server has ended' >&2; cat fault >&2; exit 1; }
[ "$(grep -c '"refund":1}' answered)" = 900 ] || fail "$(grep -vc '"refund":1}\|"charge":1,' answered) requests were refused"
[ "$(sort -un counts | wc -l)" -ge 3 ] || fail "all copies are from the same time: $(xargs <counts)"
same 'a sheet during the bookings' 'Day sheet 2026-05-01' "$("$desk" sheet club 2026-05-01 2>&1 | head -n 1)"
rm copy.*

# ---- After a restore, the desk replies with the same bytes as when the copy was made. Changes made after the copy are gone.
first=slots/court-1/2026-06-01/10 second=slots/court-1/2026-06-01/11
asks PUT $first/bookings/1001 '{"guests":4}' >told
shown() { for path in account $first $second slots/court-1/2026-05-02/01; do asks GET "$path"; done; }
shown >wanted
"$top/deploy/back_up" club copy >told
same 'a copy' 'backed up, with 901 bookings' "$(cat told)"
asks PUT $second/bookings/1002 '{"guests":4}' >told
stop
# back_up makes a complete copy even if the desk copies its write-ahead log into the club's file while back_up runs.
copy club racing
mkdir path
cat >path/cp <<CP
#!/bin/sh
$(command -v cp) "\$@"
case "\$*" in
    *racing*/copy) [ -e between ] || { touch between && "$desk" sheet racing 2026-05-01 >sheet; } ;;
esac
CP
chmod +x path/cp
same 'a copy while the desk moves its log' 'backed up, with 902 bookings' "$(PATH=$PWD/path:$PATH "$top/deploy/back_up" racing raced)"
[ -s sheet ] || fail 'the desk ran no command during the copy'
mv club lost
mv club-wal lost-wal
cp copy club
serve club 100 2026-04-20T12:00
same 'the replies after the restore' "$(cat wanted)" "$(shown)"
same 'a repeat' '{"booking":"amy-1/1001","charge":5,"left":45} 200' "$(asks PUT $first/bookings/1001 '{"guests":4}')"
same 'a booking from after the copy' '{"fault":15,"text":"no such booking"} 404' "$(asks DELETE $second/bookings/1002)"
stop
ln club second
same 'a hard link' 'storage failed' "$("$desk" sheet club 2026-05-01 2>&1 || :)"
rm second
mv lost club
mv lost-wal club-wal
same 'the old file with its log' 1 "$("$desk" sheet club 2026-06-01 | grep -c ' 1002 ')"
printf broken >bad
if "$top/deploy/back_up" bad copy.bad >told 2>said; then fail 'a broken file is copied'; fi
[ ! -e copy.bad ] || fail 'a copy of a broken file is left'

# ---- A full disk. The desk refuses bookings, and answers requests that change nothing. When the disk has space again, all requests work.
disk=$work/disk
mkdir "$disk"
mount -t tmpfs -o size=700k tmpfs "$disk" || { disk=; fail 'no small disk could be made'; }
make_club "$disk/club"
serve "$disk/club" 1000 2026-04-20T12:00
asks PUT slots/court-1/2026-05-01/10/bookings/1 '{"guests":0}' >told
dd if=/dev/zero of="$disk/fill" bs=1k 2>/dev/null || :
number=1
while grep -q '"charge"' told && [ "$number" -lt 90 ]; do
    number=$((number + 1))
    asks PUT "slots/court-1/2026-05-02/$((10 + number % 10))/bookings/$number" '{"guests":0}' >told
done
same 'a full disk' '{"fault":22,"text":"unavailable"} 503' "$(cat told)"
same 'the account' "{\"member\":\"amy\",\"balance\":$((10001 - number)),\"quota\":99,\"open\":$((number - 1)),\"spent\":$((number - 1))} 200" \
    "$(asks GET account)"
same 'a booking' '{"fault":22,"text":"unavailable"} 503' "$(asks PUT slots/court-1/2026-05-04/10/bookings/99 '{"guests":0}')"
# On a full disk, the script back_up prints one line and doesn't retry.
begun=$(date +%s)
if "$top/deploy/back_up" "$disk/club" "$disk/copy" >told 2>said; then fail 'a full disk accepts a copy'; fi
same 'the lines of a refused copy' 1 "$(wc -l <said)"
[ $(($(date +%s) - begun)) -lt 5 ] || fail "a copy to a full disk takes $(($(date +%s) - begun)) s"
same 'the files that a refused copy leaves' '' "$(find "$disk" -name '.back_up*' -o -name copy)"
rm "$disk/fill"
same 'space again' '{"booking":"amy-1/99","charge":1,"left":49} 200' "$(asks PUT slots/court-1/2026-05-04/10/bookings/99 '{"guests":0}')"
stop
echo "$checks checks of running the desk passed, with $copies copies during bookings; exposure of the units:$exposure"
