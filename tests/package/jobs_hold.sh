#!/bin/sh
# The jobs of the timers work: copies, the day sheet in four time zones, the health check, mail, and reports of failures.
#
# A job copies a club while the club's server runs. The test checks which copies the job keeps.
#
# The job refuses to copy a file that isn't a club. The test kills this job during a copy, and runs two such jobs at the same time. On each day of
# three years, the job keeps exactly the copies that a rule in Python selects. The test runs the health check for a desk that works, and for desks
# with faults.
#
# The test runs the jobs without systemd, and with a stub of the mailer. After a job is killed, the next job works.
# pytestmark = [mark.package, mark.needs("clubdesk passtool"), mark.wants("curl sqlite3 openssl procps")]
set -eu
. "$(dirname -- "$0")/../lib/serving.sh"
deploy=$(CDPATH='' cd -P -- "$here/../../deploy" && pwd)
CLUBDESK=$desk
SENDMAIL=$work/mailer
export CLUBDESK SENDMAIL
. "$here/../lib/checks.sh"

# ends WHAT STATUS COMMAND..: runs the command and checks its exit status. Standard output and standard error go to the files `told` and `said`.
ends() {
    what=$1
    wanted=$2
    shift 2
    checks=$((checks + 1))
    status=0
    "$@" >told 2>said || status=$?
    [ "$status" = "$wanted" ] || fail "$what: status $status, not $wanted: $(cat told said)"
}

for words in 'add-member club amy 5' 'credit club amy 10000' 'add-facility club court-1 court 50 1 0 24'; do
    # shellcheck disable=SC2086 # a command's words
    "$desk" $words >told
done
openssl rand -hex 32 | "$desk" add-key club amy-1 amy --root-stdin >pass
"$tool" narrow 'actions = account' <pass >health
serve club 100000 2026-04-20T12:00

# ---- Copies.
today=$(date -u +%F)
ends 'a copy' 0 "$deploy/keep_copies" club copies
name=$(ls copies)
case $name in "$today"T[0-2][0-9][0-5][0-9][0-5][0-9]Z | *T0000??Z) ;; *) fail "the copy is called $name" ;; esac
same 'the output of keep_copies' "copies/$name: backed up, with 0 bookings" "$(cat told)"
same 'the modes of the copy and its folder' '600 700' "$(stat -c %a "copies/$name" copies | xargs)"
cp "copies/$name" restored
same 'a restored club' amy "$("$desk" show-account restored amy-1 --at 2026-04-20T12:00 | sed -n 's/^member //p')"
ends 'no arguments' 2 "$deploy/keep_copies"
ends 'no file' 1 "$deploy/keep_copies" none copies
echo broken >broken
old=$(date -u -d '-400 days' +%FT031007Z)
touch "copies/$old"
ends "a copy of a file that isn't a club" 1 "$deploy/keep_copies" broken copies
printf '#!/bin/sh\necho storage failed >&2\nexit 5\n' >refuses
chmod +x refuses
ends 'a copy that clubdesk refuses' 1 env CLUBDESK="$work/refuses" "$deploy/keep_copies" club copies
grep -q "clubdesk can't open the copy" said || fail "no message about it: $(cat said)"
same 'the copies after these failures' "$old $name" "$(find copies -mindepth 1 -printf '%f\n' | sort | xargs)"
# The test kills the job during a copy. The next run removes the incomplete copy. If two jobs run at the same time, the second waits for the first.
printf '#!/bin/sh\ntouch waits\nexec sleep 30\n' >waits.sh
chmod +x waits.sh
CLUBDESK=$work/waits.sh "$deploy/keep_copies" club copies >told 2>said &
job=$!
for _ in $(seq 100); do [ ! -e waits ] || break; sleep 0.1; done
[ -e waits ] || fail 'the copy is never opened'
asleep=$(pgrep -P "$job" -x sleep || :)
kill -9 "$job"
[ -z "$asleep" ] || kill "$asleep"
wait "$job" 2>/dev/null || :
[ -n "$(find copies -name '.new*')" ] || fail 'a killed copy left nothing: was it killed?'
sleep 1
"$deploy/keep_copies" club copies >first 2>&1 &
job=$!
sleep 1.1
ends 'a second job at the same time' 0 "$deploy/keep_copies" club copies
wait "$job" || fail "two jobs at the same time: $(cat first)"
same 'the copies after these jobs' '3 0' "$(find copies -mindepth 1 ! -name '.*' | wc -l) $(find copies -name '.new*' | wc -l)"
ends 'an invalid day' 2 "$deploy/old_copies" copies tomorrow
ends 'no folder' 1 "$deploy/old_copies" nowhere 2026-05-01

# On each day of three years, the test creates at most two copies, and removes the copies that the job no longer keeps. The remaining copies must be
# those that the rule selects.
mkdir years
/usr/bin/python3 "$here/jobs_hold.py" "$deploy/old_copies" years
checks=$((checks + 1100))

# ---- The day sheet. After the configured hour of a day in the club's time zone, the job writes one sheet for the day.
for zone in UTC0 CET-1CEST,M3.5.0,M10.5.0/3 '<+13>-13' '<-11>11'; do
    there=$(TZ=$zone date +%F)
    ends "a sheet in $zone" 0 "$deploy/morning_sheet" club "$zone" 0 "sheets $zone"
    [ "$there" = "$(TZ=$zone date +%F)" ] || { echo 'the day changed: run the test again' >&2; exit 2; }
    same "the sheet in $zone" "Day sheet $there
No bookings." "$(cat "sheets $zone/$there")"
    echo mine >"sheets $zone/$there"
    ends "a second sheet in $zone" 0 "$deploy/morning_sheet" club "$zone" 00 "sheets $zone"
    same "the sheet in $zone, once" "mine" "$(cat "sheets $zone/$there")"
done
# Finds a time zone in which it is now between 0 and 1 o'clock.
now=$(date -u +%-H)
midnight=$(printf '<-%02d>%d' "$now" "$now")
ends 'a sheet at midnight' 0 "$deploy/morning_sheet" club "$midnight" 1 early
[ ! -e early ] || fail "a sheet before its hour, in $midnight"
touch -d '-40 days' 'sheets UTC0/2020-01-01' 'sheets UTC0/notes'
rm "sheets UTC0/$(date -u +%F)"
ends 'a late sheet' 0 "$deploy/morning_sheet" club UTC0 0 'sheets UTC0'
same 'old sheets' "$(date -u +%F) notes" "$(find 'sheets UTC0' -mindepth 1 ! -name '.*' -printf '%f\n' | sort | xargs)"
for hour in '' 24 x -1 007; do ends "the hour '$hour'" 2 "$deploy/morning_sheet" club UTC0 "$hour" odd; done
ends 'a sheet of no club' 1 "$deploy/morning_sheet" none UTC0 0 odd
ends 'a sheet that clubdesk refuses' 5 env CLUBDESK="$work/refuses" "$deploy/morning_sheet" club UTC0 0 odd
same 'the files of a refused sheet' '' "$(ls -A odd)"

# ---- Mail.
ends 'no mailer' 0 "$deploy/send_mail" amy@example.org sheet </dev/null
grep -q "nothing was mailed to amy@example.org" said || fail "no message about it: $(cat said)"
printf '#!/bin/sh\necho "$*" >>%s/mailed\ncat >>%s/mailed\n' "$work" "$work" >mailer
chmod +x mailer
for _ in 1 2; do ends 'a mailed sheet' 0 "$deploy/mail_sheet" club UTC0 'sheets UTC0' amy@example.org; done
same 'the mail' "-i -t
To: amy@example.org
Subject: club: day sheet $(date -u +%F)
Auto-Submitted: auto-generated
MIME-Version: 1.0
Content-Type: text/plain; charset=utf-8
Content-Transfer-Encoding: 8bit

Day sheet $(date -u +%F)
No bookings." "$(cat mailed)"
rm mailed 'sheets UTC0'/.mailed*
ends 'no mail address' 0 "$deploy/mail_sheet" club UTC0 'sheets UTC0' ''
ends 'no sheet to mail' 0 "$deploy/mail_sheet" club UTC0 odd amy@example.org
[ ! -e mailed ] || fail "something was mailed: $(cat mailed)"
cp mailer works
printf '#!/bin/sh\nexit 75\n' >mailer
ends 'a mailer that fails' 1 "$deploy/mail_sheet" club UTC0 'sheets UTC0' amy@example.org
cp works mailer
ends 'a mailer that works again' 0 "$deploy/mail_sheet" club UTC0 'sheets UTC0' amy@example.org
grep -q '^Day sheet' mailed || fail 'a sheet that could not be mailed is not mailed later'

# ---- Reports of failures.
mkdir configured marks path
# The stub of journalctl prints the failure only from its second call on.
printf '#!/bin/sh\necho "journal of $*"\n[ ! -e %s/asked ] || echo "Failed with result"\ntouch %s/asked\n' "$work" "$work" >path/journalctl
chmod +x path/journalctl
report() { PATH=$work/path:$PATH CONFIGURATION=$work/configured MARKS=$work/marks "$deploy/report_failure" "$@"; }
printf 'FILE=x\nMAIL=amy@example.org\n' >configured/club.conf
echo 'FILE=x' >configured/quiet.conf
rm mailed
for _ in 1 2; do ends 'a report' 0 report clubdesk-back-up@club.service; done
same 'the report' '1 1' "$(grep -c '^Subject: club: clubdesk-back-up@club.service failed$' mailed) $(grep -c '^journal of .* -u clubdesk-back-up@club.service$' mailed)"
grep -qx 'Failed with result' mailed || fail "a report before the journal has the failure: $(cat mailed)"
ends 'a report without a mail address' 0 report clubdesk-back-up@quiet.service
ends 'a report of another service' 2 report ssh.service
touch -d '-13 hours' marks/*
ends 'a report half a day later' 0 report clubdesk-back-up@club.service
same 'the reports' 2 "$(grep -c '^Subject' mailed)"

# ---- Health.
check() { "$deploy/check_health" "$@"; }
ends 'a check' 0 check club "$port"
grep -q '^healthy: the desk answers; its disk has [0-9]* MB left$' told || fail "a check: $(cat told)"
ends 'a check with a pass' 0 check club "$port" health
grep -q '^healthy: the desk answers, and reads its file; ' told || fail "a check with a pass: $(cat told)"
ends 'a check with a missing pass' 0 check club "$port" nothing
ends 'a check without arguments' 2 check club
sed -i 's/^least=.*/least=99999999999/' "$(cp "$deploy/check_health" full && echo full)"
ends 'a full disk' 1 ./full club "$port"
grep -q 'once the disk is full, the desk books nothing' said || fail "a full disk: $(cat said)"
"$desk" revoke-key club amy-1 >told
ends 'a check with a revoked pass' 1 check club "$port" health
grep -q "doesn't answer as expected: .*\"fault\":10" said || fail "a revoked pass: $(cat said)"
! grep -qF "$(cat health)" told said || fail 'the check prints the pass'
kill "$server"
wait "$server" 2>/dev/null || :
server=
ends 'a check of a stopped desk' 1 check club "$port"
grep -q "the desk on port $port doesn't answer as expected: curl: (7)" said || fail "a stopped desk: $(cat said)"
echo "$checks checks of the timers' jobs passed"
