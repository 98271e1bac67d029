#!/bin/sh
# Three commands set up a club on a fresh Debian behind caddy, and another machine can replace a lost machine.
#
# The club's desk answers within five minutes. Then the test destroys the machine and its disk. Within ten minutes, another machine serves the club.
# The test needs root.
#
# debootstrap makes the Debian, and systemd-nspawn boots it with only a loopback network. The clerk uses only the menu. The test runs the command
# lines that docs/CARE.md has under "Copies elsewhere" and "The machine is gone". While a client books, copies go to the ssh server of a third
# Debian. The club loses the bookings of at most one minute, and the client makes each lost booking again by repeating the request. With
# DEBIAN=FOLDER, the test copies the Debian in this folder, as package_lives.sh does.
# pytestmark = [mark.package, mark.root, mark.needs("clubdesk passtool"),
#     mark.wants("debootstrap systemd-container dpkg-dev xz-utils util-linux python3-pexpect openssl")]
# shellcheck disable=SC2016 # a shell of the fresh Debian reads the quoted text
set -eu
. "$(dirname -- "$0")/../lib/machine.sh"
holder=
ssh_server=
client=

# ---- Machines. The machines share a network namespace with only loopback, so each machine can reach the servers of the other machines.
boot() { start "$1" --network-namespace-path="/proc/$holder/ns/net"; }
end_of() {
    [ -n "$1" ] || return 0
    kill "$1" 2>/dev/null || :
    wait "$1" 2>/dev/null || :
}
leave_all() {
    rm -f "$work/books"
    end_of "$client"
    if [ -n "$machine" ]; then { inside systemctl poweroff >/dev/null 2>&1 && wait "$machine"; } || kill -9 "$machine" 2>/dev/null || :; fi
    end_of "$ssh_server"
    end_of "$holder"
    leave
}
trap leave_all EXIT

unshare --net sh -c 'ip link set lo up && exec sleep 7200' &
holder=$!
"$top/bin/package" packages >told
deb=$(basename packages/*.deb)
debian first
printf '127.0.0.1 localhost desk.example.org elsewhere.example first second\n' >first/etc/hosts
cp "packages/$deb" first/root/
# The test downloads the packages before it cuts the machines off from the network.
offline first sh -c "apt-get update && apt-get install --download-only /root/$deb caddy openssh-client openssh-server prometheus-node-exporter" >apt.log 2>&1 </dev/null ||
    fail "apt-get: $(tail apt.log)"
cp -a first second
cp -a first elsewhere
for name in first second elsewhere; do echo "$name" >"$name/etc/hostname"; done

# The machine with the name `elsewhere` stores the copies. It has an ssh server, and a user with a home folder.
offline elsewhere sh -c 'apt-get install openssh-server sqlite3 && useradd --create-home --shell /bin/sh --password "*" backup-of-clubs' >apt.log 2>&1 </dev/null || fail "apt-get: $(tail apt.log)"
there=$work/elsewhere/home/backup-of-clubs
install -d -m 700 -o "$(stat -c %u "$there")" -g "$(stat -c %g "$there")" "$there/.ssh"
mkdir -p elsewhere/run/sshd
# trust FILE: makes the machine that keeps the copies accept this ssh key.
trust() {
    cat "$1" >>"$there/.ssh/authorized_keys"
    chown "$(stat -c %u:%g "$there")" "$there/.ssh/authorized_keys"
}
serve_ssh() {
    nsenter -t "$holder" -n -- chroot elsewhere /usr/sbin/sshd -D -e -o UsePAM=no -o PasswordAuthentication=no 2>ssh.log &
    ssh_server=$!
}
serve_ssh

# Takes the command lines for root from the package's INSTALL.md and CARE.md, and replaces the user's name on the ssh server.
dpkg-deb -x "packages/$deb" unpacked
lines_for_root unpacked/usr/share/doc/clubdesk/docs/INSTALL.md unpacked/usr/share/doc/clubdesk/docs/CARE.md
sed -i 's/backup@elsewhere.example/backup-of-clubs@elsewhere.example/' running

# ---- Three commands. The site's name is known only on this machine, so caddy uses its own certificate authority.
#
# by_name METHOD PATH [BODY]: sends a request to the public name, with the pass in the machine's file /root/pass.
by_name() {
    inside sh -c 'curl -sS --max-time 20 --cacert /root/ca.pem -X "$1" ${3:+-d "$3"} -H "Authorization: Bearer $(cat /root/pass)" -w " %{http_code}" "https://desk.example.org/$2"' sh "$@"
}
authority=/var/lib/caddy/.local/share/caddy/pki/authorities/local/root.crt
trusts_authority() {
    soon 30 "caddy has no authority" inside test -s "$authority"
    gives "caddy's authority" <<LINES
cp $authority /root/ca.pem
cp $authority /usr/local/share/ca-certificates/test.crt
update-ca-certificates
LINES
}
boot first
began=$(date +%s)
gives 'the first command' <<LINES
apt-get install ./$deb caddy ca-certificates
LINES
# The machine can't reach a certificate authority on the internet, so caddy's own authority gives the certificate.
sed -i 's/^\tauto_https disable_redirects/&\n\tlocal_certs\n\tskip_install_trust/' first/usr/share/doc/clubdesk/examples/Caddyfile
set_up='clubdesk-setup --title "TC Example" --club club --domain desk.example.org --zone Europe/Berlin --clerk anna --mail ""'
gives 'the second command' <<LINES
$set_up
LINES
holds 'nothing is left to do' sh -c '! grep -q "Left to do" told'
# The third command is `office`, and the clerk uses only its menu.
cat >menu.py <<'MENU'
import sys
import pexpect

line = ["-t", sys.argv[1], "-a", "--", "runuser", "-u", "anna", "--", "env", "-i", "PATH=/usr/bin:/bin", "LANG=C.UTF-8", "TERM=dumb", "HOME=/home/anna", "sh", "-c", "cd; exec office club"]
it = pexpect.spawn("nsenter", line, encoding="utf-8", timeout=60, dimensions=(50, 80))
for question, answer in (
    ("Task: ", "a new facility"), ("Short name", "court-1"), ("Kind", "court"), ("Places", "4"), ("Points per", "200"), ("Opening hours", "8-22"), ("Do it", ""), ("Enter for", ""),
    ("Task: ", "a new member"), ("Full name", "Amy Möller"), ("Open bookings", "99"), ("Points", "100000"), ("Do it", ""), ("Enter for", ""), ("Task: ", ""),
):
    it.expect(question)
    it.sendline(answer)
it.expect(pexpect.EOF)
it.close()
sys.exit(it.exitstatus)
MENU
holds 'the third command, by its menu' /usr/bin/python3 -B menu.py "$leader"
cp first/home/anna/passes/moeller-amy-1 first/root/pass 2>/dev/null || cp first/home/anna/passes/amy-moeller-1 first/root/pass
trusts_authority
day=$(TZ=Europe/Berlin date -d '+2 days' +%F)
booked=$(by_name PUT "slots/court-1/$day/18/bookings/1" '{"guests":2}')
case $booked in *'"charge":600,"left":1} 200') ;; *) fail "the first booking: $booked" ;; esac
took=$(($(date +%s) - began))
[ "$took" -lt 300 ] || fail "the first booking took $took seconds"
checks=$((checks + 1))
echo "the first booking, $took seconds after the first command"

# Like nginx, caddy serves the pages with their security policies, and refuses some requests itself.
head_of() { inside curl -sS --max-time 20 --cacert /root/ca.pem -o /dev/null -D - "$@" | tr -d '\r' | tr "[:upper:]" "[:lower:]"; }
"$top/bin/pages" --to pages
for page in book.html pass.html demo.html worker.js app.webmanifest; do
    same "the page $page" "$(sha256sum <"pages/$page")" "$(inside curl -sS --cacert /root/ca.pem "https://desk.example.org/$page" | sha256sum)"
    head_of "https://desk.example.org/$page" >heads
    grep -qx 'cache-control: no-cache' heads || fail "the caching of $page: $(cat heads)"
done
for page in / /account; do
    head_of "https://desk.example.org$page" >heads
    for field in 'cache-control: no-store' 'strict-transport-security: max-age=31536000' 'referrer-policy: no-referrer' 'x-content-type-options: nosniff' \
        "content-security-policy: frame-ancestors 'none'" 'cross-origin-opener-policy: same-origin' 'cross-origin-resource-policy: same-origin'; do
        [ "$(grep -cx "$field" heads)" = 1 ] || fail "$page, $field: $(cat heads)"
    done
    grep -q '^date: ' heads || fail "$page has no date"
    if grep -q '^server:' heads; then fail "$page names the server"; fi
    checks=$((checks + 1))
done
head_of https://desk.example.org/worker.js >heads
grep -q "default-src 'none'; connect-src 'self'" heads || fail "the worker's policy: $(cat heads)"
grep -q '^content-type: text/javascript' heads || fail "the worker's type: $(cat heads)"
head_of https://desk.example.org/club.json >heads
grep -q '^content-type: application/json' heads || fail "the list's type: $(cat heads)"
same 'the redirect to the page' '302 /book.html' "$(inside curl -sS --cacert /root/ca.pem -o /dev/null -w '%{http_code} %header{location}' https://desk.example.org/)"
same 'a large body' 413 "$(inside sh -c 'head -c 1500 /dev/zero | curl -sS --http1.1 --cacert /root/ca.pem -o /dev/null -w "%{http_code}" -X PUT --data-binary @- https://desk.example.org/slots/court-1/2026-05-01/18/bookings/1')"
same 'without TLS' 000 "$(inside curl -s -o /dev/null -w '%{http_code}' --max-time 5 http://desk.example.org/account || :)"
same 'no pass' '{"fault":4,"text":"no pass"} 401' "$(inside curl -sS --cacert /root/ca.pem -w ' %{http_code}' https://desk.example.org/account)"
same 'a pass of 8,192 bytes' 'too long or unknown 40' "$(inside sh -c 'curl -sS --cacert /root/ca.pem -o /dev/null -w "too long or unknown %{http_code}" -H "Authorization: Bearer $(head -c 8192 /dev/zero | tr "\0" A)" https://desk.example.org/account' | cut -c 1-22)"

# A second run of the setup changes nothing.
sums() { inside sh -c 'for folder in /etc/clubdesk /etc/caddy /var/www /etc/passwd /etc/group; do find $folder -type f -exec stat -c "%n %Y %a %U" {} + -exec sha256sum {} +; done; systemctl show --value -p MainPID clubdesk@club caddy' | sort; }
sums >before
gives 'the setup, again' <<LINES
$set_up
clubdesk-setup --club club
LINES
if grep -q '^made' told; then fail "the setup, again: $(cat told)"; fi
sums | diff before - >told || fail "the setup, again: $(cat told)"
checks=$((checks + 1))

# ---- Copies to the other machine, with the command lines of CARE.md. The command lines print an ssh key, and the other machine's administrator
# adds this key.
blocks 'Copies elsewhere' >lines
sed '/known_hosts\|accept-new/,$d' lines | gives 'Copies elsewhere'
grep '^ssh-ed25519' told >key || fail "no key was printed: $(cat told)"
trust key
sed -n '/accept-new/,$p' lines | gives 'Copies elsewhere'
copies() { find "$there/clubs/club" -maxdepth 1 -name '2*Z' -printf '%f\n' 2>/dev/null | sort; }
has_copy() { [ -n "$(copies)" ]; }
soon 60 'no copy elsewhere' has_copy
# Requests to the public name. caddy's own certificate authority gives certificates that are valid for twelve hours, so the health check fails.
if inside systemctl start clubdesk-health@club 2>told; then fail 'the health check accepts a certificate of twelve hours'; fi
is_asked() { inside journalctl -q -o cat -u clubdesk-health@club | grep -q 'the certificate of desk.example.org is valid until .*: renew it'; }
soon 10 'health by the public name' is_asked
same 'units that failed' '' "$(inside systemctl --failed --plain --no-legend | grep -v clubdesk-health || :)"
gives 'metrics' <<'LINES'
apt-get install prometheus-node-exporter
chgrp clubdesk /var/lib/prometheus/node-exporter && chmod g+w /var/lib/prometheus/node-exporter
echo METRICS=/var/lib/prometheus/node-exporter >>/etc/clubdesk/club.conf
systemctl start clubdesk-metrics@club
LINES
for number in 2 3; do by_name PUT "slots/court-1/$day/$((17 + number))/bookings/$number" '{"guests":0}' >told; done
inside runuser -u anna -- office club credit moeller-amy 1 >told 2>&1 || inside runuser -u anna -- office club credit amy-moeller 1 >told
sleep 1
holds 'metrics' inside systemctl start clubdesk-metrics@club
inside curl -sS http://127.0.0.1:9100/metrics >metrics
grep -q '^clubdesk_requests_total{club="club",status="200"} [2-9]' metrics || fail "metrics: $(grep clubdesk metrics)"
grep -q '^clubdesk_orders_total{club="club",status="0"} 1' metrics || fail "metrics: $(grep clubdesk metrics)"
grep -q '^clubdesk_copy_age_seconds{club="club",place="off-site"}' metrics || fail "metrics: $(grep clubdesk metrics)"
grep -q 'node_textfile_scrape_error 0' metrics || fail "node_exporter: $(grep textfile metrics)"
checks=$((checks + 4))

# ---- A client books once a second. Then the power fails, and the disk is lost.
touch books
{
    number=100
    while [ -e books ]; do
        number=$((number + 1))
        path="slots/court-1/$(TZ=Europe/Berlin date -d "+$((3 + number % 50)) days" +%F)/$((8 + number / 50 % 14))/bookings/$number"
        case $(by_name PUT "$path" '{"guests":0}') in *200) echo "$(date +%s) $path" >>acknowledged ;; esac
        sleep 0.8 # at most 93 in 75 seconds: her quota is 99
    done
} 2>/dev/null &
client=$!
sleep 75
rm books
wait "$client" || :
client=
lost_at=$(date +%s)
kill -9 "$leader"
wait "$machine" 2>/dev/null || :
machine=
rm -rf "$work/first/var" "$work/first/etc"
acknowledged=$(wc -l <acknowledged)
[ "$acknowledged" -gt 30 ] || fail "the client booked little: $acknowledged"

# ---- Another machine. The machine with the copies accepts the ssh key of the new machine's root.
boot second
began=$(date +%s)
inside sh -c 'mkdir -p -m 700 /root/.ssh'
cp "$work/elsewhere/etc/ssh/ssh_host_ed25519_key.pub" hostkey
echo "elsewhere.example $(cat hostkey)" >second/root/.ssh/known_hosts
ssh-keygen -q -t ed25519 -N '' -f second/root/.ssh/id_ed25519
trust second/root/.ssh/id_ed25519.pub
blocks 'The machine is gone' >lines
same 'the number of lines' 2 "$(wc -l <lines)"
head -n 1 lines | sed "s/clubdesk_[0-9.]*_amd64.deb/$deb/; s/caddy/& ca-certificates/" | gives 'The machine is gone, its first line'
sed -i 's/^\tauto_https disable_redirects/&\n\tlocal_certs\n\tskip_install_trust/' second/usr/share/doc/clubdesk/examples/Caddyfile
tail -n 1 lines | gives 'The machine is gone, its second line'
cat told
# The members still have their passes.
cp "$work/first/root/pass" second/root/pass
trusts_authority
is_back() { case $(by_name GET account) in '{"member":'*' 200') return 0 ;; *) return 1 ;; esac; }
soon 60 'the club is back' is_back
took=$(($(date +%s) - began))
[ "$took" -lt 600 ] || fail "the club was back after $took seconds"
checks=$((checks + 1))

# The restored club has each booking that was made more than a minute before the loss. For each lost booking, the client repeats the request, and so
# makes the booking again.
inside sh -c 'rm -f /root/looked; /usr/lib/clubdesk/back_up /var/lib/clubdesk/club /root/looked' >told
inside sqlite3 /root/looked 'SELECT number FROM bookings WHERE cancelled = 0' | sort >numbers
lost=0
while read -r at path; do
    if ! grep -qx "${path##*/}" numbers; then
        lost=$((lost + 1))
        [ $((lost_at - at)) -le 60 ] || fail "a booking of $((lost_at - at)) seconds before the loss is gone: $path"
        case $(by_name PUT "$path" '{"guests":0}') in *'"charge":200'*' 200') ;; *) fail "a repeat of a lost booking: $path" ;; esac
    fi
done <acknowledged
inside sh -c 'rm -f /root/looked; /usr/lib/clubdesk/back_up /var/lib/clubdesk/club /root/looked' >told
same 'the bookings after all repeats' "$((acknowledged + 3))" "$(inside sqlite3 /root/looked 'SELECT count(*) FROM bookings')"
same 'the totals' '' "$(unsound second/root/looked)"
same 'the clerk' anna "$(inside getent group office | cut -d : -f 4)"
same 'the health pass' '640 root clubdesk' "$(inside stat -c '%a %U %G' /etc/clubdesk/club.health)"
same 'the timers' 'clubdesk-back-up@club.timer clubdesk-health@club.timer clubdesk-sheet@club.timer' \
    "$(inside systemctl list-units --plain --no-legend --state=active 'clubdesk-*.timer' | cut -d ' ' -f 1 | sort | xargs)"

# Without the new machine's ssh key, the machine with the copies refuses new copies, and the health check fails.
blocks 'Copies elsewhere' | grep -v OFFSITE= >lines
sed '/accept-new/,$d' lines | gives 'Copies elsewhere, on the new machine'
grep '^ssh-ed25519' told >key
trust key
before=$(copies | tail -n 1)
sed -n '/accept-new/,$p' lines | gives 'Copies elsewhere, on the new machine'
has_newer() { [ "$(copies | tail -n 1)" != "$before" ]; }
soon 60 'no copy from the new machine' has_newer
# The ssh server's machine is down, and then up again.
failures() { inside journalctl -q -o cat -u clubdesk-offsite@club | grep -c 'the service will try again' || :; }
failed=$(failures)
end_of "$ssh_server"
booked=$(by_name PUT "slots/court-1/$day/12/bookings/90" '{"guests":0}')
case $booked in *' 200') ;; *) fail "a booking while the host is down: $booked" ;; esac
is_said() { [ "$(failures)" -gt "$failed" ]; }
soon 60 'a host that is down' is_said
before=$(copies | tail -n 1)
serve_ssh
soon 60 'no copy after the host is up again' has_newer
same 'units that failed' '' "$(inside systemctl --failed --plain --no-legend | grep -v clubdesk-health || :)"
echo "$checks checks of machines passed; the club was available again $took seconds after the first line, without the downloads; $lost of $acknowledged bookings were lost, and made again"
