// A desk with net/http and SQLite's C library. tests/peers/beside.py compares the times of this
// desk with those of clubdesk. The desk has the same file, statements and replies as
// beside_c/desk.c.
//
//	desk FILE MOMENT < STATEMENTS      beside.py explains these arguments
package main

import (
	"bufio"
	"database/sql"
	"encoding/base64"
	"encoding/json"
	"errors"
	"fmt"
	"log"
	"net"
	"net/http"
	"os"
	"strconv"
	"strings"
	"sync"
	"time"

	_ "github.com/mattn/go-sqlite3"
	"gopkg.in/macaroon.v2"
)

const (
	pragmas = "_locking_mode=EXCLUSIVE&_journal_mode=WAL&_synchronous=FULL&_foreign_keys=on&_cache_size=2000&_mutex=no"
	day     = 24 * 60
	window  = 86400
)

// desk answers one request at a time.
type desk struct {
	sync.Mutex
	moment   int
	database *sql.DB

	key, older, member, facility, slot, booking, costs, open, addBooking, addTaken, charge *sql.Stmt
}

func check(err error) {
	if err != nil {
		log.Fatal(err)
	}
}

func newDesk(path string, moment int) *desk {
	database, err := sql.Open("sqlite3", "file:"+path+"?"+pragmas)
	check(err)
	database.SetMaxOpenConns(1)
	d := &desk{moment: moment, database: database}
	texts := bufio.NewScanner(os.Stdin)
	for _, it := range []**sql.Stmt{&d.key, &d.older, &d.member, &d.facility, &d.slot, &d.booking, &d.costs, &d.open,
		&d.addBooking, &d.addTaken, &d.charge} {
		texts.Scan()
		*it, err = database.Prepare(texts.Text())
		check(err)
	}
	return d
}

// isFound returns whether a query has a row, and scans this row.
func isFound(row *sql.Row, to ...any) bool {
	err := row.Scan(to...)
	if !errors.Is(err, sql.ErrNoRows) {
		check(err)
	}
	return err == nil
}

// each scans every row of a query, and calls `then` after each row.
func each(rows *sql.Rows, err error, then func(), to ...any) {
	check(err)
	defer rows.Close()
	for rows.Next() {
		check(rows.Scan(to...))
		then()
	}
	check(rows.Err())
}

func (d *desk) memberOf(name string) (balance, quota, used int) {
	isFound(d.member.QueryRow(name), &name, &balance, &quota, &used)
	return balance - used, quota, used
}

func (d *desk) spentBy(key string) (spent int) {
	var charge, refund int
	rows, err := d.costs.Query(key)
	each(rows, err, func() { spent += charge - refund }, &charge, &refund)
	return spent
}

// hasSpentAbove returns whether a key has spent more than `most` points. It adds up the costs of
// the key's bookings only if the member has used more than `most` points.
func (d *desk) hasSpentAbove(key key, most int) bool {
	_, _, used := d.memberOf(key.member)
	return used > most && d.spentBy(key.name) > most
}

func (d *desk) openOf(member string) (count int) {
	var number int
	rows, err := d.open.Query(member, d.moment, d.moment/day)
	each(rows, err, func() { count++ }, &number)
	return count
}

type slot struct {
	facility  string
	day, hour int
}

func (d *desk) use(of slot) (closed bool, taken int) {
	isFound(d.slot.QueryRow(of.facility, of.day, of.hour), &closed, &taken)
	return closed, taken
}

type facility struct {
	kind                        string
	places, price, opens, shuts int
}

type request struct {
	action, date   string
	slot           slot
	number, guests int
}

type reply struct {
	status int
	body   string
}

func serve(format string, values ...any) reply { return reply{200, fmt.Sprintf(format, values...)} }

var faults = map[int]reply{
	1: {400, "bad request"}, 2: {404, "no such path"}, 4: {401, "no pass"}, 6: {400, "pass malformed"},
	9: {401, "not verified"}, 10: {403, "key revoked"}, 11: {403, "caveat not understood"},
	12: {403, "caveat denies"}, 13: {409, "number used"}, 14: {404, "no such facility"}, 16: {409, "not bookable"},
	17: {409, "slot closed"}, 18: {409, "no places"}, 19: {409, "quota reached"}, 20: {402, "balance too low"},
}

func refuse(fault int, more string) reply {
	return reply{faults[fault].status, fmt.Sprintf(`{"fault":%d,"text":%q%s}`, fault, faults[fault].body, more)}
}

// readRequest reads the path and the body. If the request has no fault, readRequest returns fault
// 0.
func readRequest(r *http.Request) (it request, fault int) {
	if r.URL.Path == "/account" {
		return request{action: "account"}, 0
	}
	parts := strings.Split(r.URL.Path, "/")
	if len(parts) < 5 || parts[1] != "slots" {
		return it, 2
	}
	start, err := time.Parse("2006-01-02 15", parts[3]+" "+parts[4])
	if err != nil {
		return it, 2
	}
	it = request{action: "view", date: parts[3], slot: slot{parts[2], int(start.Unix() / 60 / day), start.Hour()}}
	if len(parts) == 5 {
		return it, 0
	}
	if len(parts) != 7 || parts[5] != "bookings" {
		return it, 2
	}
	if it.number, err = strconv.Atoi(parts[6]); err != nil || it.number < 1 {
		return it, 2
	}
	body := struct{ Guests int }{-1}
	if json.NewDecoder(r.Body).Decode(&body) != nil || body.Guests < 0 || body.Guests > 49 {
		return it, 1
	}
	it.action, it.guests = "book", body.Guests
	return it, 0
}

// readPass reads a pass in V2, in URL-safe base64 without padding.
func readPass(text string) (it macaroon.Macaroon, isPass bool) {
	raw, err := base64.RawURLEncoding.DecodeString(text)
	isPass = err == nil && len(text) <= 8192 && it.UnmarshalBinary(raw) == nil
	return it, isPass && it.Version() == macaroon.V2 && len(it.Caveats()) <= 64
}

type key struct {
	name, member string
	root         []byte
	revoked      bool
}

// signer returns the key that a pass names, if one of the key's valid roots signed the pass.
func (d *desk) signer(p *macaroon.Macaroon) (it key, isSigned bool) {
	name := strings.TrimPrefix(string(p.Id()), "key:")
	if name == string(p.Id()) || !isFound(d.key.QueryRow(name), &it.name, &it.member, &it.root, &it.revoked) {
		return it, false
	}
	if _, err := p.VerifySignature(it.root, nil); err == nil {
		return it, true
	}
	var older []byte
	var until int
	if !isFound(d.older.QueryRow(name), &older, &until) || d.moment >= until {
		return it, false
	}
	_, err := p.VerifySignature(older, nil)
	return it, err == nil
}

// firstFault returns the fault and the number of the first caveat that denies the request or isn't
// understood.
func (d *desk) firstFault(p *macaroon.Macaroon, key key, it request, owed int) (fault, number int) {
	for n, caveat := range p.Caveats() {
		if allows, isUnderstood := d.allows(string(caveat.Id), key, it, owed); !isUnderstood {
			return 11, n + 1
		} else if !allows {
			return 12, n + 1
		}
	}
	return 0, 0
}

// allows understands only the caveats that beside.py writes: guests, until, spend, actions.
func (d *desk) allows(text string, key key, it request, owed int) (allows, isUnderstood bool) {
	words := append(strings.SplitN(text, " ", 3), "", "")
	limit, err := strconv.Atoi(words[2])
	isLimit := err == nil && limit >= 0 && strconv.Itoa(limit) == words[2]
	switch words[0] + words[1] {
	case "guests<=":
		return it.guests <= limit, isLimit && limit <= 49
	case "until<":
		until, err := time.Parse("2006-01-02T15:04", words[2])
		return int64(d.moment) < until.Unix()/60, err == nil
	case "spend<=":
		return owed == 0 || owed <= limit && !d.hasSpentAbove(key, limit-owed), isLimit && limit <= 999_999_999
	case "actions=":
		rest := strings.Split(words[2], ",")
		for _, action := range []string{"view", "book", "cancel", "account"} {
			if len(rest) > 0 && rest[0] == action {
				rest, allows = rest[1:], allows || action == it.action
			}
		}
		return allows, len(rest) == 0
	}
	return false, false
}

func (d *desk) answer(r *http.Request) reply {
	it, fault := readRequest(r)
	if fault > 0 {
		return refuse(fault, "")
	}
	field := r.Header.Get("Authorization")
	if !strings.HasPrefix(field, "Bearer ") {
		return refuse(4, "")
	}
	pass, isPass := readPass(strings.TrimPrefix(field, "Bearer "))
	if !isPass {
		return refuse(6, "")
	}
	key, isSigned := d.signer(&pass)
	if !isSigned {
		return refuse(9, "")
	}
	if key.revoked {
		return refuse(10, "")
	}
	return d.answerUnder(key, &pass, it)
}

func (d *desk) answerUnder(key key, pass *macaroon.Macaroon, it request) reply {
	var then request
	var place facility
	var charge, left, cancelled, refund int
	isRepeat := it.number > 0 && isFound(d.booking.QueryRow(key.name, it.number), &key.name, &it.number, &then.slot.facility,
		&then.slot.day, &then.slot.hour, &then.guests, &charge, &left, &cancelled, &refund)
	isKnown := it.action != "account" && !isRepeat && isFound(d.facility.QueryRow(it.slot.facility),
		&it.slot.facility, &place.kind, &place.places, &place.price, &place.opens, &place.shuts)
	owed := 0
	if it.action == "book" {
		owed = place.price * (it.guests + 1)
	}
	if fault, caveat := d.firstFault(pass, key, it, owed); fault > 0 {
		return refuse(fault, fmt.Sprintf(`,"caveat":%d`, caveat))
	}
	switch {
	case it.action == "account":
		balance, quota, _ := d.memberOf(key.member)
		return serve(`{"member":%q,"balance":%d,"quota":%d,"open":%d,"spent":%d}`,
			key.member, balance, quota, d.openOf(key.member), d.spentBy(key.name))
	case isRepeat && (then.slot != it.slot || then.guests != it.guests):
		return refuse(13, "")
	case isRepeat:
		return serve(`{"booking":"%s/%d","charge":%d,"left":%d}`, key.name, it.number, charge, left)
	case !isKnown:
		return refuse(14, "")
	case it.action == "book":
		return d.book(key, it, place, owed)
	}
	closed, taken := d.use(it.slot)
	return serve(`{"facility":%q,"day":%q,"hour":%d,"kind":%q,"price":%d,"places":%d,"taken":%d,"closed":%t}`,
		it.slot.facility, it.date, it.slot.hour, place.kind, place.price, place.places, taken, closed)
}

func (d *desk) book(key key, it request, place facility, charge int) reply {
	start := it.slot.day*day + it.slot.hour*60
	if it.slot.hour < place.opens || it.slot.hour >= place.shuts || start <= d.moment || start-d.moment > window {
		return refuse(16, "")
	}
	closed, taken := d.use(it.slot)
	left := place.places - taken - it.guests - 1
	balance, quota, _ := d.memberOf(key.member)
	switch {
	case closed:
		return refuse(17, "")
	case left < 0:
		return refuse(18, "")
	case d.openOf(key.member) >= quota:
		return refuse(19, "")
	case balance < charge:
		return refuse(20, "")
	}
	d.add(key, it, charge, left)
	return serve(`{"booking":"%s/%d","charge":%d,"left":%d}`, key.name, it.number, charge, left)
}

// add writes a booking, and updates the sums of the slot and of the member.
func (d *desk) add(key key, it request, charge, left int) {
	tx, err := d.database.Begin()
	check(err)
	write := func(statement *sql.Stmt, values ...any) {
		result, err := tx.Stmt(statement).Exec(values...)
		check(err)
		if changed, err := result.RowsAffected(); err != nil || changed != 1 {
			log.Fatal("rows changed: ", changed, err)
		}
	}
	write(d.addBooking, key.name, it.number, it.slot.facility, it.slot.day, it.slot.hour, it.guests, charge, left, 0, 0)
	write(d.addTaken, it.slot.facility, it.slot.day, it.slot.hour, it.guests+1)
	write(d.charge, key.member, charge, key.name, it.slot.facility, it.slot.day, it.slot.hour)
	check(tx.Commit())
}

func (d *desk) ServeHTTP(w http.ResponseWriter, r *http.Request) {
	d.Lock()
	defer d.Unlock()
	answer := d.answer(r)
	w.Header()["Date"] = nil
	w.Header().Set("Content-Type", "application/json")
	if answer.status == http.StatusUnauthorized {
		w.Header()["WWW-Authenticate"] = []string{"Bearer"}
	}
	w.WriteHeader(answer.status)
	fmt.Fprint(w, answer.body)
}

func main() {
	if len(os.Args) != 3 {
		log.Fatal("usage: desk FILE MOMENT < STATEMENTS")
	}
	moment, err := strconv.Atoi(os.Args[2])
	check(err)
	server := &http.Server{Handler: newDesk(os.Args[1], moment)}
	server.SetKeepAlivesEnabled(false)
	listener, err := net.Listen("tcp4", "127.0.0.1:0")
	check(err)
	fmt.Printf("listening on 127.0.0.1:%d\n", listener.Addr().(*net.TCPAddr).Port)
	check(server.Serve(listener))
}
