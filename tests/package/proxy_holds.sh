#!/bin/sh
# The command lines for root in docs/INSTALL.md set up pages, certificates, TLS and several clubs with nginx.
#
# The test needs root, because it covers the machine's folders with temporary overlays (tests/lib/office_room.sh).
#
# The test runs the lines of the sections "A club", "The pages", "A certificate", "TLS" and "Several clubs". Certbot gets a certificate from the
# test's own certificate authority (Let's Encrypt's pebble), and nginx answers the challenges of this authority. Certbot renews the certificate,
# and the site then uses the new certificate. Through nginx with TLS, the test requests the desk's replies and the pages. The test also runs a
# slow client, and two clubs behind one proxy. At port 80, nginx answers only challenges. A client that exceeds the limit of requests gets a
# message.
# pytestmark = [mark.package, mark.root, mark.needs("clubdesk passtool"),
#     mark.wants("sudo sqlite3 openssl util-linux bsdutils iproute2 systemd curl nginx-light certbot pebble qrencode tzdata")]
set -eu
room_net=yes
. "$(dirname -- "$0")/../lib/office_room.sh"
[ -e /etc/nginx/sites-enabled/default ] || ln -s ../sites-available/default /etc/nginx/sites-enabled/default
. "$here/../lib/checks.sh"
started=
leave_all() {
    nginx -s stop 2>/dev/null || :
    for process in $started $(cat "$room/started" 2>/dev/null); do kill "$process" 2>/dev/null || :; done
    leave
}
trap leave_all EXIT

# is_heard URL: succeeds if a server listens at this address.
is_heard() {
    code=0
    curl -s -o heard --max-time 1 -k "$1" || code=$?
    [ "$code" != 7 ]
}

for folder in /var/log /var/www /run; do
    mkdir -p "$folder"
    if [ "$folder" = /run ]; then mount -t tmpfs tmpfs "$folder"; else over "$folder"; fi
done
mkdir -p /var/log/nginx /run/sudo
# The test's machine resolves only the names in /etc/hosts.
sed -i 's/^hosts:.*/hosts: files/' /etc/nsswitch.conf
echo '127.0.0.1 localhost desk.example.org rowing.example.org' >/etc/hosts

# A stub of systemctl for the commands in INSTALL.md. The stub can reload nginx. If a command enables a club, the stub runs the club's desk.
cat >"$room/systemctl" <<SYSTEMCTL
#!/bin/sh
case "\$*" in
    'reload nginx') exec nginx -s reload ;;
    'enable --now clubdesk@'*)
        club=\${3#clubdesk@}
        . "/etc/clubdesk/\$club.conf"
        setpriv --reuid clubdesk --regid clubdesk --clear-groups clubdesk serve "\$FILE" --port "\$PORT" --count 1000000 \\
            --at 2026-04-20T12:00 >"$room/\$club.out" 2>&1 </dev/null &
        echo \$! >>"$room/started"
        ;;
    *) exit 1 ;;
esac
SYSTEMCTL
install -m 755 "$room/systemctl" /usr/bin/systemctl

mkdir "$room/page"
by_page() {
    page_block "$1" >"$room/lines"
    [ -s "$room/lines" ] || fail "docs/INSTALL.md has no lines under '$1'"
    holds "$1" env -C "$room/page" sh -e "$room/lines"
    echo "$1: $(wc -l <"$room/lines") lines run"
}

# ---- The first club, made with the command lines of INSTALL.md, and a member.
by_page 'A club'
# Each club has its own folder for passes, because both clubs have a member amy.
member_of() (
    mkdir "$1-clerk"
    cd "$1-clerk"
    office "$1" add-member amy 99
    office "$1" credit amy 1000
    office "$1" add-facility "$2" court 4 1 0 24
    office "$1" add-key amy-1 amy --to "$work/$1-pass"
)
member_of club court-1 >told
cp club-pass "$room/page/amy-1"
systemctl enable --now clubdesk@club
direct=http://127.0.0.1:8080 site=https://desk.example.org slot=slots/court-1/2026-05-01/18
# asks BASE METHOD PATH PASS [BODY]: prints the reply to a request, then the reply's status.
asks() { curl -sS --noproxy '*' --max-time 20 -w ' %{http_code}' -X "$2" -H "Authorization: Bearer $4" ${5:+-d "$5"} "$1/$3"; }
pass=$(cat club-pass)
soon 10 'the desk' is_heard $direct/
same 'a booking' '{"booking":"amy-1/7","charge":3,"left":1} 200' "$(asks $direct PUT $slot/bookings/7 "$pass" '{"guests":2}')"
same 'a cancellation' '{"booking":"amy-1/7","refund":3} 200' "$(asks $direct DELETE $slot/bookings/7 "$pass")"
by_page 'The pages'
same 'the lines of the pages' 6 "$(wc -l <"$room/lines")"
same 'a lost list' "record of amy-1
7 court-1 2026-05-01 18 guests 2 charge 3 left 1 refund 3" "$(cat told)"
same 'the link of a letter' 1 "$(grep -c "$site/book.html#$pass" "$room/page/amy-1.html")"
same "the mode of the club's list" 644 "$(stat -c %a /var/www/club/club.json)"
club_json() { /usr/lib/clubdesk/club_json /var/lib/clubdesk/club "$1"; }
cp /etc/clubdesk/club.conf configured
sed -i 's/^ZONE=.*/ZONE=GMT0BST,M3.5.0\/1,M10.5.0/' /etc/clubdesk/club.conf
holds 'the zone of the server' club_json Europe/London
if club_json Europe/Berlin >told 2>&1; then fail "club_json accepts a zone that isn't the server's"; fi
same 'the reason of the refusal' 1 "$(grep -c 'one of the two time zones is wrong' told)"
cp configured /etc/clubdesk/club.conf

# ---- A certificate, and a site with this certificate.
nginx
mkdir "$room/authority"
mkdir -p /etc/letsencrypt
REQUESTS_CA_BUNDLE=$room/authority/own.pem # which certbot trusts
export REQUESTS_CA_BUNDLE
cd "$room/authority"
openssl req -x509 -newkey rsa:2048 -nodes -days 2 -subj /CN=pebble -addext subjectAltName=IP:127.0.0.1 -keyout key.pem -out own.pem 2>/dev/null
echo '{"pebble": {"listenAddress": "127.0.0.1:14000", "managementListenAddress": "127.0.0.1:15000", "certificate": "own.pem",
    "privateKey": "key.pem", "httpPort": 80, "tlsPort": 443}}' >pebble.json
# The certificate authority demands a challenge for each order, and accepts each nonce.
PEBBLE_AUTHZREUSE=0 PEBBLE_WFE_NONCEREJECT=0 PEBBLE_VA_NOSLEEP=1 pebble -config pebble.json >log 2>&1 &
started="$started $!"
cd "$work"
printf '%s\n' 'non-interactive = true' 'agree-tos = true' 'register-unsafely-without-email = true' 'server = https://127.0.0.1:14000/dir' \
    >/etc/letsencrypt/cli.ini
soon 10 'the authority' curl -sS --cacert "$room/authority/own.pem" -o "$room/authority/ca.pem" https://127.0.0.1:15000/roots/0
by_page 'A certificate'
live=/etc/letsencrypt/live/desk.example.org
sed -i "s,/etc/ssl/clubdesk/certificate.pem,$live/fullchain.pem,; s,/etc/ssl/clubdesk/key.pem,$live/privkey.pem," \
    /usr/share/doc/clubdesk/examples/nginx.conf
by_page TLS
soon 10 'the site' is_heard https://127.0.0.1/
code=0
curl -s -o told http://127.0.0.1/account || code=$?
same 'nothing else is answered at port 80' 52 "$code"
same 'an unknown challenge at port 80' 404 "$(curl -s -o told -w '%{http_code}' http://127.0.0.1/.well-known/acme-challenge/x)"
served() { openssl s_client -connect 127.0.0.1:443 -servername desk.example.org </dev/null 2>/dev/null | openssl x509 -noout -serial; }
sleep 1
old=$(served)
same 'the site has the certificate' "$(openssl x509 -noout -serial -in "$live/cert.pem")" "$old"
holds 'certbot renew' certbot renew --force-renewal --no-random-sleep-on-renew
sleep 1
[ "$(served)" != "$old" ] || fail 'after the renewal the site has the old certificate'
same 'the site has the new certificate' "$(openssl x509 -noout -serial -in "$live/cert.pem")" "$(served)"
same 'no challenge is left' '' "$(find /var/www/challenge -type f)"

# ---- A second club, with its own public name.
holds certbot certbot certonly --webroot --webroot-path /var/www/challenge --domain rowing.example.org --deploy-hook 'systemctl reload nginx'
by_page 'Several clubs'
member_of rowing boat-1 >told
sed -i 's,/live/desk.example.org/,/live/rowing.example.org/,' /etc/nginx/sites-available/rowing
nginx -t -q && systemctl reload nginx
soon 10 'the second desk' is_heard http://127.0.0.1:8081/
sleep 1
printf 'cacert = "%s/authority/ca.pem"\nsilent\nshow-error\nnoproxy = "*"\n' "$room" >.curlrc
CURL_HOME=$PWD
export CURL_HOME
seen() {
    printf 'Authorization: Bearer %s' "$(cat "$1-pass")" >field
    curl -H @field "https://$2.example.org/$3"
}
same "the first club's court" '"facility":"court-1"' "$(seen club desk slots/court-1/2026-05-01/18 | grep -o '"facility":"[a-z0-9-]*"')"
same "the second club's boat" '"facility":"boat-1"' "$(seen rowing rowing slots/boat-1/2026-05-01/18 | grep -o '"facility":"[a-z0-9-]*"')"
court='{"name":"court-1","title":"Court 1","kind":"court","opens":0,"shuts":24}'
same "the club's list" "{\"name\":\"Our club\",\"zone\":\"Europe/Berlin\",\"facilities\":[$court]}" "$(curl $site/club.json)"
for page in book pass; do
    curl --compressed -D fields -o told $site/$page.html
    same "the page $page" "$(sha256sum <"/usr/share/clubdesk/web/$page.html") 1" "$(sha256sum <told) $(grep -ci '^content-encoding: gzip' fields)"
done
same '/' "302 $site/book.html" "$(curl -o told -w '%{http_code} %{redirect_url}' $site/)"
same "a pass of the other club" '{"fault":9,"text":"not verified"}' "$(seen rowing desk account)"

# ---- The proxy passes the desk's replies on unchanged. For requests that change nothing, the test compares the desk's reply with the reply through
# the proxy.
same 'a booking behind TLS' '{"booking":"amy-1/8","charge":3,"left":1} 200' "$(asks $site PUT $slot/bookings/8 "$pass" '{"guests":2}')"
by_both() { same "$1 $2 through the proxy" "$(asks $direct "$@")" "$(asks $site "$@")"; }
for guests in 2 1; do by_both PUT $slot/bookings/8 "$pass" "{\"guests\":$guests}"; done
for path in $slot "$slot?x=%2F" account; do by_both GET "$path" "$pass"; done
by_both POST account "$pass"
for given in nonsense "$(printf %8192s '' | tr ' ' a)" "$(printf %8193s '' | tr ' ' a)"; do by_both GET account "$given"; done
same 'a cancellation behind TLS' '{"booking":"amy-1/8","refund":3} 200' "$(asks $site DELETE $slot/bookings/8 "$pass")"
health=$("$tool" narrow 'actions = account' <club-pass)
same 'the health check' '{"member":"amy","balance":1000,"quota":99,"open":0,"spent":0} 200' "$(asks $site GET account "$health")"
same 'a health pass books nothing' '{"fault":12,"text":"caveat denies","caveat":1} 403' "$(asks $site PUT $slot/bookings/9 "$health" '{"guests":0}')"
same 'no TLS' 400 "$(curl -o told -w '%{http_code}' http://127.0.0.1:443/account)"

# If a client sends only half a request, the proxy waits for the rest, and the desk serves other clients.
{
    printf 'PUT /%s/bookings/9 HTTP/1.1\r\nHost: desk.example.org\r\nContent-Length: 12\r\n' $slot
    sleep 6
} | openssl s_client -quiet -connect 127.0.0.1:443 >slow 2>&1 &
slow=$!
sleep 0.5
begun=$(date +%s%N)
by_both GET account "$pass"
[ $((($(date +%s%N) - begun) / 1000000)) -lt 3000 ] || fail 'a slow client holds up the others'
wait "$slow" || :

# ---- The limits. The proxy accepts a burst of 2,000 requests from one address. The proxy refuses
# the rest of the burst, but still answers requests from another address. A second after the burst,
# the proxy also answers requests from the limited address again.
#
# The function `flood NAME COUNT [WORD..]` sends a burst of COUNT requests, with the options WORD.. for curl. NAME is a part of the output files'
# names. The requests ask for a file, because nginx sends a file faster than the desk replies. The function counts the accepted requests in
# `passed`, and the refused requests in `limited`. The sum of these two numbers must be COUNT.
flood() {
    name=$1 count=$2
    shift 2
    curl --no-progress-meter -Z --parallel-max 40 -o "got.$name.#1" -w '%{http_code}\n' "$@" "$site/club.json?[1-$count]" >"statuses.$name" || :
    limited=$(grep -c '^429' "statuses.$name" || :)
    passed=$(grep -c '^200' "statuses.$name" || :)
    [ $((passed + limited)) = "$count" ] || fail "$passed of $count simultaneous requests passed, and $limited were limited"
}
sleep 2
flood neighbour 6000 --interface 127.0.0.2 -H "Authorization: Bearer $health" &
flooding=$!
sleep 0.5
for _ in $(seq 20); do
    curl -o told -w '%{http_code}\n' -H "Authorization: Bearer $(cat club-pass)" $site/account
done >statuses
same 'another address during the flood' '200' "$(sort -u statuses)"
wait "$flooding" || fail 'the flood from an address'
sleep 6
flood address 6000
{ [ "$passed" -ge 2000 ] && [ "$limited" -ge 20 ]; } || fail "$passed of 6000 requests from one address passed, and $limited were limited"
same 'the sentence' 'Too many requests at once. Send this one again in a second.' "$(find . -name 'got.address.*' -exec grep -lF 'Too many' {} + | head -n 1 | xargs cat)"
same 'as many sentences as refusals' "$limited" "$(find . -name 'got.address.*' -exec grep -lF 'Send this one again in a second.' {} + | wc -l)"
sleep 1.2
same 'a second later' 200 "$(curl -o told -w '%{http_code}' -H "Authorization: Bearer $(cat club-pass)" https://desk.example.org/account)"
echo "$checks checks of the proxy passed: $passed of 6000 simultaneous requests were answered, $limited were refused"
