#!/bin/sh
# `bin/package` makes the same bytes in two runs, lintian finds no fault, and the package works in a fresh Debian.
#
# debootstrap makes the Debian, and systemd-nspawn boots it with its own systemd and only a loopback network. In this Debian, the test runs
# docs/INSTALL.md's command lines for root, from the installation to the restore. The command lines set up the desk behind nginx with TLS, the timers
# and their jobs, mail, and a second club in another time zone. The test also boots the machine again. A clerk without root does the work of a first
# week, from the import of members to a restore. The test upgrades the package while a client books. The test also upgrades to a faulty package whose
# clubdesk can't open a club. The test removes the package, installs it again, and purges it. No acknowledged booking is lost, and the clubs' files
# stay. At the end the test checks the archive for systems without dpkg, whose files go below /usr/local. The test needs root and a Debian mirror.
# With DEBIAN=FOLDER, the test copies the Debian in this folder. This command makes such a folder:
# `debootstrap --variant=minbase --include=systemd,systemd-sysv bookworm FOLDER`.
# pytestmark = [mark.package, mark.root, mark.needs("clubdesk passtool"),
#     mark.wants("debootstrap systemd-container lintian dpkg-dev xz-utils util-linux")]
# shellcheck disable=SC2016 # a shell of the fresh Debian reads the quoted text
set -eu
. "$(dirname -- "$0")/../lib/machine.sh"
version=$("$top/bin/version")
client=

# ---- The fresh Debian.
boot() {
    start debian --private-network
    same 'units that failed at boot' '' "$(inside systemctl --failed --plain --no-legend)"
}
# Each shell that nsenter started must end first, because a running shell would keep the machine from shutting down.
halt() {
    [ -n "$machine" ] || return 0
    if [ -n "$client" ]; then { inside touch /root/enough && wait "$client"; } || :; fi
    client=
    inside systemctl poweroff >/dev/null 2>&1 || kill "$machine" 2>/dev/null || :
    wait "$machine" || :
    machine=
}
leave_all() {
    halt
    leave
}
trap leave_all EXIT

# ---- The package has the same bytes even with another umask, folder, locale, time zone and home folder.
holds 'bin/package' "$top/bin/package" first
(umask 077 && cd / && LC_ALL=C.UTF-8 TZ=Asia/Tokyo HOME=/nonexistent "$top/bin/package" "$work/second" >"$work/told")
for file in first/*; do same "$file, again" "$(sha256sum <"$file")" "$(sha256sum <"second/${file##*/}")"; done
same 'the made files' "SHA256SUMS clubdesk-$version-amd64.tar.xz clubdesk_${version}_amd64.deb" "$(cd first && echo *)"
(cd first && sha256sum --quiet -c SHA256SUMS)
deb=clubdesk_${version}_amd64.deb
# The option --allow-root is necessary, because lintian otherwise prints a warning for root.
holds lintian lintian --allow-root --fail-on error,warning --tag-display-limit 0 "first/$deb"
same 'the output of lintian' '' "$(cat told)"
dpkg-deb -x "first/$deb" unpacked
same "the package's completions" 'clubdesk office passtool _clubdesk _office _passtool clubdesk.fish office.fish passtool.fish' \
    "$(cd unpacked/usr/share && for folder in bash-completion/completions zsh/vendor-completions fish/vendor_completions.d; do ls $folder; done | xargs)"
holds 'the packed clubdesk' cmp "$desk" unpacked/usr/bin/clubdesk
holds 'the packed passtool' cmp "$tool" unpacked/usr/bin/passtool
# Three newer versions of the package. The clubdesk of the second version can't open a club.
# other VERSION [COMMAND]: makes the package with this version, after COMMAND has changed the package's tree.
other() {
    rm -rf other
    dpkg-deb -R "first/$deb" other
    sed -i "s/^Version: .*/Version: $1/" other/DEBIAN/control
    [ -z "${2-}" ] || (cd other && sh -c "$2")
    dpkg-deb --root-owner-group -Zxz -z1 --build other "clubdesk_$1_amd64.deb" >/dev/null
}
other "$version+1"
other "$version+2" "printf '#!/bin/sh\necho storage failed >&2\nexit 5\n' >usr/bin/clubdesk"
other "$version+3"
if "$top/bin/package" a b >told 2>&1; then fail 'bin/package accepts two folders'; fi
if CLUBDESK=/bin/true "$top/bin/package" third >told 2>&1; then fail 'bin/package accepts another program'; fi
[ -z "$(ls third)" ] || fail 'a refused package left something'

root=$work/debian
debian "$root"
echo desk >"$root/etc/hostname"
echo '127.0.0.1 localhost desk' >"$root/etc/hosts"
cp "first/$deb" ./*.deb first/*.tar.xz "$root/root/"
# The test downloads the necessary packages before it cuts the machine off from the network.
offline "$root" sh -c "apt-get update && apt-get install --download-only /root/$deb qrencode xz-utils" >apt.log 2>&1 </dev/null || fail "apt-get: $(tail apt.log)"
boot

# Takes the command lines for root from the package's INSTALL.md and CARE.md.
lines_for_root unpacked/usr/share/doc/clubdesk/docs/INSTALL.md unpacked/usr/share/doc/clubdesk/docs/CARE.md

# answers PORT: checks that the desk listens at this port within ten seconds, and that it refuses a request without a pass.
answers() {
    soon 10 "the desk at port $1" inside curl -sS --max-time 5 "http://127.0.0.1:$1/account"
    same "the desk at port $1" '{"fault":4,"text":"no pass"}' "$(cat told)"
}

# ---- The command lines of INSTALL.md, from the installation on.
installed=$(date +%s)
blocks Install | grep '^apt install ' | head -n 1 >install
same 'the line that installs' "apt install ./$deb" "$(cat install)"
gives Install <install
holds 'the installed files' inside dpkg --verify clubdesk
same 'the version' "clubdesk $version" "$(inside clubdesk --version)"
same 'the user' '/var/lib/clubdesk /usr/sbin/nologin' "$(inside getent passwd clubdesk | cut -d : -f 6,7 | tr : ' ')"
same "the package's folders" '700 clubdesk clubdesk /var/lib/clubdesk
700 clubdesk clubdesk /var/backups/clubdesk
2750 clubdesk office /var/spool/clubdesk' "$(inside stat -c '%a %U %G %n' /var/lib/clubdesk /var/backups/clubdesk /var/spool/clubdesk)"
same 'no desk yet' '' "$(inside systemctl list-units --all --plain --no-legend 'clubdesk*')"
holds 'a manual page' inside sh -c 'test -s /usr/share/man/man1/clubdesk.1.gz -o -e /usr/share/man/man1'
for unit in "$root"/usr/lib/systemd/system/clubdesk*@.*; do
    unit=${unit##*/}
    said=$(inside systemd-analyze verify --man=no "$(echo "$unit" | sed 's/@/@club/')" 2>&1) || fail "$unit: $said"
    same "systemd-analyze of $unit" '' "$said"
done

# If no club exists, the desk doesn't create one.
gives 'A club, configured' <<'LINES'
cp /usr/share/doc/clubdesk/examples/club.conf /etc/clubdesk/club.conf
systemctl start clubdesk@club && exit 1
test ! -e /var/lib/clubdesk/club
systemctl stop clubdesk@club
LINES
blocks 'A club' | gives 'A club'
blocks 'Start at boot' | gives 'Start at boot'
answers 8080
same 'the timers' 'clubdesk-back-up@club.timer clubdesk-health@club.timer clubdesk-sheet@club.timer' \
    "$(inside systemctl list-units --plain --no-legend --state=active 'clubdesk-*.timer' | cut -d ' ' -f 1 | sort | xargs)"
same "the files' modes" '600 600' "$(inside stat -c %a /var/lib/clubdesk/club /var/lib/clubdesk/club-wal | xargs)"

# Makes the desk's club, with the member amy, a key and a court.
gives 'commands' <<'LINES'
c=/var/lib/clubdesk/club
desk() { runuser -u clubdesk -- clubdesk "$@"; }
desk add-member $c amy 5
desk credit $c amy 10000
desk add-facility $c court-1 court 50 1 0 24
openssl rand -hex 32 | desk add-key $c amy-1 amy --root-stdin >/root/amy-1
LINES

# ---- TLS. The test makes its own certificate for the site desk.example.org.
gives 'a certificate' <<'LINES'
mkdir -p /etc/ssl/clubdesk
openssl req -x509 -newkey rsa:2048 -nodes -days 2 -subj /CN=desk.example.org -addext subjectAltName=DNS:desk.example.org \
    -keyout /etc/ssl/clubdesk/key.pem -out /etc/ssl/clubdesk/certificate.pem
LINES
blocks TLS | gives TLS
blocks 'The pages' | gives 'The pages'
inside sh -c 'printf "Authorization: Bearer %s\n" "$(cat /root/amy-1)" >/root/field'
# by_tls METHOD PATH [BODY]: waits until the desk listens, and sends a request through nginx with TLS.
by_tls() {
    answers 8080
    inside curl -sS --max-time 20 --cacert /etc/ssl/clubdesk/certificate.pem --resolve desk.example.org:443:127.0.0.1 -w ' %{http_code}' \
        -H @/root/field -X "$1" ${3:+-d "$3"} "https://desk.example.org/$2"
}
# books WHAT: sends a booking through nginx with TLS. Later calls repeat this booking, and get the same reply.
books() { same "$1" '{"booking":"amy-1/7","charge":3,"left":47} 200' "$(by_tls PUT "slots/court-1/$day/18/bookings/7" '{"guests":2}')"; }
day=$(TZ=CET-1CEST,M3.5.0,M10.5.0/3 date -d '+2 days' +%F)
books 'a booking behind TLS'
served=$(($(date +%s) - installed))
[ "$served" -lt 600 ] || fail "setting up a club behind TLS took $served seconds"
"$top/bin/pages" --to pages
for page in book.html pass.html demo.html worker.js app.webmanifest; do
    same "the page $page" "$(sha256sum <"pages/$page")" "$(inside curl -sS --cacert /etc/ssl/clubdesk/certificate.pem \
        --resolve desk.example.org:443:127.0.0.1 "https://desk.example.org/$page" | sha256sum)"
done
holds 'a letter' inside grep -q svg /root/amy-1.html
same "the club's list for the pages" 'Europe/Berlin court-1 Court 1' \
    "$(by_tls GET club.json | sed 's/ 200$//' | python3 -c 'import json, sys; club = json.load(sys.stdin); court = club["facilities"][0]; print(club["zone"], court["name"], court["title"])')"
same 'the account behind TLS' '{"member":"amy","balance":9997,"quota":5,"open":1,"spent":3} 200' "$(by_tls GET account)"

# ---- Health.
health_says() { inside journalctl -q -o cat -u clubdesk-health@club | grep "^healthy: the desk answers$1; its disk has"; }
holds 'a check without a pass' inside systemctl start clubdesk-health@club
soon 10 'the output of the check without a pass' health_says ''
blocks 'Is it well?' | gives 'Is it well?'
soon 10 'the output of the check' health_says ', and reads its file'
same 'the pass of the check' '640 root clubdesk' "$(inside stat -c '%a %U %G' /etc/clubdesk/club.health)"

# ---- A second club, whose time zone is about half a day ahead of the first club's. The second club's mail goes to a file. The first club has no mail
# address.
mkdir -p "$root/usr/sbin"
printf '#!/bin/sh\n{ echo "== $*"; cat; } >>/var/mail/sent\n' >"$root/usr/sbin/sendmail"
chmod 755 "$root/usr/sbin/sendmail"
blocks 'Several clubs' | gives 'Several clubs'
gives 'a second club' <<'LINES'
install -o clubdesk -m 600 /dev/null /var/mail/sent
sed -i 's/^ZONE=.*/ZONE=NZST-12NZDT,M9.5.0,M4.1.0\/3/; s/^SHEET_HOUR=.*/SHEET_HOUR=0/; s/^#MAIL=.*/MAIL=cox@example.org/' /etc/clubdesk/rowing.conf
c=/var/lib/clubdesk/rowing
desk() { runuser -u clubdesk -- sh -c 'umask 077; exec clubdesk "$@"' sh "$@"; }
desk add-member $c ben 5
desk credit $c ben 1000
desk add-facility $c boat-1 boat 4 10 0 24
openssl rand -hex 32 | desk add-key $c ben-1 ben --root-stdin >/root/ben-1
systemctl restart clubdesk@rowing
LINES
answers 8081
there=NZST-12NZDT,M9.5.0,M4.1.0/3
tomorrow=$(TZ=$there date -d tomorrow +%F)
same 'a booking in the second club' '{"booking":"ben-1/1","charge":20,"left":2}' \
    "$(inside sh -c "curl -sS -X PUT -H \"Authorization: Bearer \$(cat /root/ben-1)\" -d '{\"guests\":1}' http://127.0.0.1:8081/slots/boat-1/$tomorrow/10/bookings/1")"
same 'a pass of the other club' '{"fault":9,"text":"not verified"}' \
    "$(inside sh -c 'curl -sS -H "Authorization: Bearer $(cat /root/ben-1)" http://127.0.0.1:8080/account')"
today=$(TZ=$there date +%F)
for _ in 1 2; do holds 'the sheet' inside systemctl start clubdesk-sheet@rowing; done
today_after=$(TZ=$there date +%F)
[ "$today" = "$today_after" ] || today=$(inside ls /var/spool/clubdesk/rowing)
same 'the sheet of its day' "Day sheet $today" "$(inside head -n 1 "/var/spool/clubdesk/rowing/$today")"
same 'the sheets' "640 clubdesk office $today" "$(inside sh -c 'cd /var/spool/clubdesk/rowing && stat -c "%a %U %G %n" *')"
same 'the mailed sheet' "== -i -t
To: cox@example.org
Subject: rowing: day sheet $today
Day sheet $today" "$(inside grep -E '^(==|To|Subject|Day|Total)' /var/mail/sent)"
# The back-up of a file that isn't a club fails. A systemd service mails one report of this failure. If the club's configuration has no mail address,
# the service mails none.
gives 'a broken club' <<'LINES'
: >/var/mail/sent
echo broken >/var/lib/clubdesk/broken
printf 'FILE=/var/lib/clubdesk/broken\nZONE=UTC0\nPORT=8082\nMAIL=cox@example.org\n' >/etc/clubdesk/broken.conf
sed 's/^MAIL.*//' /etc/clubdesk/broken.conf >/etc/clubdesk/silent.conf
for club in broken broken silent; do ! systemctl start clubdesk-back-up@$club; done
! systemctl start clubdesk-health@broken
for wait in $(seq 50); do grep -q health /var/mail/sent && break; sleep 0.1; done
systemctl stop 'clubdesk-report@*'
LINES
same 'the reports' 'Subject: broken: clubdesk-back-up@broken.service failed
Subject: broken: clubdesk-health@broken.service failed' "$(inside grep ^Subject /var/mail/sent | sort)"
inside cat /var/mail/sent >sent
grep -q "the copy isn't a complete club" sent || fail "the report doesn't say why: $(cat sent)"
grep -q "the desk on port 8082 doesn't answer as expected" sent || fail "the report doesn't say why: $(cat sent)"
same "copies of a file that isn't a club" '' "$(inside find /var/backups/clubdesk/broken -type f)"
gives 'the broken clubs are removed' <<'LINES'
systemctl reset-failed
rm -r /etc/clubdesk/broken.conf /etc/clubdesk/silent.conf /var/lib/clubdesk/broken /var/backups/clubdesk/broken /var/backups/clubdesk/silent
LINES

# ---- A clerk without root uses sudo. A correction doesn't stop the server. A restore stops the server, and systemd starts it again.
blocks 'The clerks' | gives 'The clerks'
gives 'a club for the clerk' <<'LINES'
useradd --create-home carl
printf 'FILE=/var/lib/clubdesk/tennis\nZONE=UTC0\nPORT=8083\n' >/etc/clubdesk/tennis.conf
LINES
# office USER WORD..: runs office as USER, in the home folder of USER.
office() {
    user=$1
    shift
    # shellcheck disable=SC2016 # for the shell within
    inside runuser -u "$user" -- sh -c 'cd "$0" && exec office tennis "$@"' "/home/$user" "$@"
}
same 'a new club' 'done' "$(office anna new)"
holds "the desk's start" inside systemctl enable --now clubdesk@tennis
answers 8083
for words in 'add-member eve 5' 'credit eve 1000' 'add-facility court-1 court 4 10 0 24' 'add-key eve-1 eve --to eve-1'; do
    # shellcheck disable=SC2086 # a command's words
    holds "$words" office anna $words
done
# Requests the account. A server that has replied to a request with a pass has certainly opened the club's file.
account() { inside sh -c 'curl -sS -H "Authorization: Bearer $(cat /home/anna/eve-1)" http://127.0.0.1:8083/account'; }
same 'the account before a correction' '{"member":"eve","balance":1000,"quota":5,"open":0,"spent":0}' "$(account)"
pid_of() { inside systemctl show --value -p MainPID "$1"; }
before=$(pid_of clubdesk@tennis)
holds 'a correction' office anna set-quota eve 7 --yes
answers 8083
same 'the server during a correction' "$before" "$(pid_of clubdesk@tennis)"
same 'the account after a correction' '{"member":"eve","balance":1000,"quota":7,"open":0,"spent":0}' "$(account)"
office anna log >told
[ "$(grep -c anna told)" -ge 6 ] || fail "the book: $(cat told)"
if office carl credit eve 1000 >told 2>&1; then fail "a credit by a user who isn't a clerk"; fi

# A new clerk's first week.
week=$(date -u -d '+3 days' +%F)
# asks PASS METHOD PATH [BODY]: waits until the desk runs again, and sends a request with the pass in the clerk's file PASS.
asks() {
    answers 8083
    inside sh -c 'curl -sS --max-time 20 -X "$2" ${4:+-d "$4"} -H "Authorization: Bearer $(cat "/home/anna/$1")" "http://127.0.0.1:8083/$3"' sh "$@"
}
printf '%s\n' 'name,quota,points' 'Amy,5,10000' '"Müller, Bob",2,3000' >"$root/home/anna/members.csv"
holds 'an import' office anna import members.csv --yes
same 'the imported members' 'amy,10000,5,0,1,Amy mueller-bob,3000,2,0,1,Müller, Bob' "$(office anna members --csv | grep -E '^(amy|mueller)' | xargs)"
same 'the import again' 'nothing to do' "$(office anna import members.csv --yes | tail -n 1)"
for booking in 'amy-1 10 1 1' 'amy-1 14 2 0' 'mueller-bob-1 12 1 0'; do
    # shellcheck disable=SC2086 # key, hour, number, guests
    set -- $booking
    same "a booking of $1" "{\"booking\":\"$1/$3\",\"charge\":$((10 * ($4 + 1))),\"left\":$((3 - $4))}" \
        "$(asks "passes/$1" PUT "slots/court-1/$week/$2/bookings/$3" "{\"guests\":$4}")"
done
same 'bookings' "$week,10,court-1,amy,amy-1,1,2,20,Amy $week,12,court-1,mueller-bob,mueller-bob-1,1,1,10,Müller, Bob $week,14,court-1,amy,amy-1,2,1,10,Amy" \
    "$(office anna bookings "$week" --csv | tail -n +2 | xargs)"
same 'the sheet' 'Total bookings 3, persons 4, charge 40' "$(office anna sheet "$week" | grep Total)"
holds 'a wrong credit' office anna credit amy 500
same 'its correction' 'balance of amy changes from 10470 to 9970 done' "$(office anna debit amy 500 --yes | xargs)"
holds 'a price' office anna set-facility court-1 --price 12 --yes
same 'the price' 'price 12' "$(office anna show-slot court-1 "$week" 10 | grep price)"
ending='1 booking cancelled, 20 points back to amy, 1 slot closed done Members to inform: Amy'
same 'a tournament' "cancels court-1 $week 10:00, 2 persons, 20 points back: amy-1 1, amy closes court-1 $week 10:00 in all: $ending" \
    "$(office anna close "$week" 10-11 court-1 --yes | xargs)"
same 'its slot' '{"fault":17,"text":"slot closed"}' "$(asks passes/amy-1 PUT "slots/court-1/$week/10/bookings/3" '{"guests":0}')"
same 'rain' "cancels court-1 $week 12:00, 1 person, 10 points back: mueller-bob-1 1, mueller-bob done Members to inform: Müller, Bob" \
    "$(office anna rain "$week" court-1 12 --yes | xargs)"
holds 'a lost pass' office anna rotate-key amy-1 2000-01-01T00:00 --to amy-1-new
same 'the lost pass' '{"fault":9,"text":"not verified"}' "$(asks passes/amy-1 GET account)"
same 'the new pass' '{"member":"amy","balance":9990,"quota":5,"open":1,"spent":10}' "$(asks amy-1-new GET account)"
holds 'a nightly copy' inside systemctl start clubdesk-back-up@tennis
night=$(office anna copies --csv | grep back-up | tail -n 1 | cut -d , -f 1)
holds 'a member who leaves' office anna leave mueller-bob --yes
same "the former member's pass" '{"fault":9,"text":"not verified"}' "$(asks passes/mueller-bob-1 GET account)"
same 'the members' '1,3000,0,0,1, amy,9990,5,1,1,Amy eve,1000,7,0,1,' "$(office anna members --csv | tail -n +2 | xargs)"
before=$(pid_of clubdesk@tennis)
office anna restore "$night" --yes >told
same 'a restore' 'removes the member 1
brings back the member mueller-bob
removes the key 1-1: its passes are refused
brings back the key mueller-bob-1 and its passes
in all: 4 changes
done' "$(cat told)"
same 'a pass from before the restore' '{"member":"mueller-bob","balance":3000,"quota":2,"open":0,"spent":0}' "$(asks passes/mueller-bob-1 GET account)"
[ "$(pid_of clubdesk@tennis)" != "$before" ] || fail "the restore didn't restart the desk"
same 'the totals of her club' 'the stored totals match the sums of the bookings' "$(office anna check)"
[ "$(office anna log | grep -c ' anna 0 ')" -ge 20 ] || fail "the book: $(office anna log)"
same 'club files that a clerk can read' '' "$(inside runuser -u anna -- sh -c 'cat /var/lib/clubdesk/* /var/backups/clubdesk/* 2>/dev/null' || :)"
same 'sheets that a clerk can read' "$today" "$(inside runuser -u anna -- ls /var/spool/clubdesk/rowing)"

# ---- Back-ups while the desk runs, and the removal of old back-ups.
gives 'old copies' <<'LINES'
mkdir -p /var/backups/clubdesk/club
for days in 20 21 22 23 24 25 26 500; do touch "/var/backups/clubdesk/club/$(date -u -d "-$days days" +%FT031007Z)"; done
touch /var/backups/clubdesk/club/keep-me
chown -R clubdesk:clubdesk /var/backups/clubdesk/club
LINES
blocks 'Back up' | gives 'Back up'
inside ls /var/backups/clubdesk/club >told
grep -qx keep-me told || fail 'a file with another name is gone'
! grep -q "^$(date -u -d '-500 days' +%F)" told || fail 'a copy from 500 days ago stays'
[ "$(grep -c Z$ told)" -le 4 ] || fail "old copies stay: $(cat told)"
copy=$(grep "^$(date -u +%Y)" told | sort | tail -n 1)
same 'the copy' "600 clubdesk" "$(inside stat -c '%a %U' "/var/backups/clubdesk/club/$copy")"

# ---- Only one program at a time can open the club's file. A restore removes the bookings made after the copy.
blocks 'One program at a time' | gives 'One program at a time'
same 'a booking after the copy' '{"booking":"amy-1/8","charge":1,"left":49} 200' "$(by_tls PUT "slots/court-1/$day/19/bookings/8" '{"guests":0}')"
blocks Restore | sed "s/2026-05-01T031007Z/$copy/" | gives Restore
books 'a booking from before the copy'
same 'a booking from after the copy' '{"fault":15,"text":"no such booking"} 404' "$(by_tls DELETE "slots/court-1/$day/19/bookings/8")"

# ---- The machine boots again, after a shutdown and after a power failure.
halt
boot
books 'the desk after a boot'
kill -9 "$leader"
wait "$machine" || :
boot
books 'the desk after a power cut'

# ---- An upgrade while a client books. Afterwards the club has each acknowledged booking, and the desk runs as a new process.
inside sh -c 'runuser -u clubdesk -- clubdesk credit /var/lib/clubdesk/club amy 100000 >/dev/null; cat >/root/client' <"$here/package_lives.py"
inside sh -c "rm -f /root/enough; exec python3 /root/client $day" >booked 2>client.log &
client=$!
before=$(pid_of clubdesk@club) other_before=$(pid_of clubdesk@rowing)
sleep 1
copies=$(inside sh -c 'ls /var/backups/clubdesk/club | wc -l')
holds 'an upgrade' inside apt-get install "/root/clubdesk_$version+1_amd64.deb"
sleep 1
[ "$(pid_of clubdesk@club)" != "$before" ] || fail 'the desk was not restarted'
[ "$(pid_of clubdesk@rowing)" != "$other_before" ] || fail 'the other desk was not restarted'
same 'both desks' 'active active' "$(inside systemctl is-active clubdesk@club clubdesk@rowing | xargs)"
same 'a copy before the restart' $((copies + 1)) "$(inside sh -c 'ls /var/backups/clubdesk/club | wc -l')"
before=$(pid_of clubdesk@club)
inside apt-get install "/root/clubdesk_$version+2_amd64.deb" >told 2>&1 || fail "an upgrade to a program that can't open a club: $(tail told)"
grep -q 'clubdesk@club.service keeps running its old program' told || fail "apt doesn't report a desk with its old program: $(tail told)"
same "a desk whose club the new program can't open" "$before active" "$(pid_of clubdesk@club) $(inside systemctl is-active clubdesk@club)"
holds 'the next upgrade' inside apt-get install "/root/clubdesk_$version+3_amd64.deb"
sleep 1
[ "$(pid_of clubdesk@club)" != "$before" ] || fail 'the desk was not restarted by the next upgrade'
inside touch /root/enough
wait "$client" || fail "the client: $(cat client.log)"
client=
acknowledged=$(grep -c PUT booked)
[ "$acknowledged" -gt 50 ] || fail "the client booked little: $(tail booked client.log)"
inside sh -c 'rm -f /root/looked && /usr/lib/clubdesk/back_up /var/lib/clubdesk/club /root/looked' >told
same 'the acknowledged bookings' "$acknowledged" "$(inside sqlite3 /root/looked 'SELECT count(*) FROM bookings WHERE number > 1000 AND cancelled = 1')"
same 'the totals' '' "$(unsound "$root/root/looked")"
grep -q '^tries [1-9]' client.log || fail 'the upgrades interrupted no request: they restarted no desk'

# ---- Removal of the package: the desks end, and their configuration and files stay. When the package is installed again, the desks run again.
holds 'the removal' inside apt-get remove clubdesk
same 'desks after the removal' '' "$(inside systemctl list-units --plain --no-legend --state=active 'clubdesk*')"
same 'programs after the removal' '' "$(inside sh -c 'ls -d /usr/bin/clubdesk /usr/bin/passtool /usr/lib/clubdesk /usr/share/clubdesk 2>/dev/null || :')"
same 'the files that stay' '/etc/clubdesk/club.conf /etc/clubdesk/rowing.conf /var/lib/clubdesk/club /var/lib/clubdesk/rowing' \
    "$(inside ls /etc/clubdesk/club.conf /etc/clubdesk/rowing.conf /var/lib/clubdesk/club /var/lib/clubdesk/rowing | xargs)"
holds 'the installation after the removal' inside apt-get install "/root/$deb"
holds 'a start after the second installation' inside systemctl start clubdesk@club
books 'the desk after the second installation'

# ---- Purge of the package: only the clubs, the back-ups and the system user stay.
inside apt-get purge clubdesk >told 2>&1 || fail "purge: $(tail told)"
grep -q '/var/lib/clubdesk stays' told || fail "purge doesn't say what stays: $(tail told)"
same 'the files after the purge' '/var/backups/clubdesk
/var/lib/clubdesk' "$(inside find / -xdev \( -path /proc -o -path /sys -o -path /root -o -path /var/www \) -prune -o -name '*clubdesk*' -print | grep -vE \
    '^/(var/lib/clubdesk/|var/backups/clubdesk/|var/log/|etc/nginx/|etc/ssl/|var/cache/apt/|tmp/systemd-private|var/tmp/systemd-private)' | sort)"
same 'the clubs' 'clubdesk clubdesk' "$(inside stat -c %U /var/lib/clubdesk/club /var/lib/clubdesk/rowing | xargs)"
inside sh -c 'cp /var/lib/clubdesk/club /root/purged; cp /var/lib/clubdesk/club-wal /root/purged-wal 2>/dev/null || :'
same 'bookings after the purge' $((acknowledged + 1)) "$(inside sqlite3 /root/purged 'SELECT count(*) FROM bookings')"

# ---- The archive for systems without dpkg, with the club that remained after the purge.
holds 'the installation of xz-utils' inside apt-get install xz-utils
blocks Install | grep -vE '^(bin/package|cd packages|apt install)' | sed 's,packages/,/root/,' | gives 'the archive'
same 'the programs of the archive' "$(cd unpacked/usr/bin && sha256sum clubdesk passtool)" "$(inside sh -c 'cd /usr/local/bin && sha256sum clubdesk passtool')"
gives "the archive's desk" <<'LINES'
cp /usr/local/share/doc/clubdesk/examples/club.conf /etc/clubdesk/club.conf
systemctl start clubdesk@club clubdesk-back-up@club clubdesk-sheet@club clubdesk-health@club
LINES
books "the archive's desk"
same 'units that failed' '' "$(inside systemctl --failed --plain --no-legend)"
halt
sort -u given >wanted
cut -f 1 running | sort -u >found
same 'sections whose lines no test runs, except those of tests/package/proxy_holds.sh and tests/package/machine_lives.sh' 'A certificate
A club by a few questions
Copies elsewhere
The machine is gone' "$(comm -13 wanted found)"
echo "$checks checks of the package's life passed; a club behind TLS $served seconds after the first line of INSTALL, without the downloads;" \
    "$acknowledged bookings during three upgrades"
