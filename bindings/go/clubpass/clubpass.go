// Package clubpass reads, writes, narrows and verifies passes with the library libclubpass.
//
// A copy of a Pass is a separate pass, and calls in different goroutines share no data.
package clubpass

/*
#cgo pkg-config: clubpass
#include <clubpass.h>
*/
import "C"

import (
	"fmt"
	"time"
	"unsafe"
)

// A Fault is the reason why a call failed. The numbers of faults are the numbers in clubpass.h.
type Fault int

const (
	TooLong       Fault = C.CLUBPASS_TOO_LONG
	Malformed     Fault = C.CLUBPASS_MALFORMED
	ThirdParty    Fault = C.CLUBPASS_THIRD_PARTY
	TooMany       Fault = C.CLUBPASS_TOO_MANY
	Memory        Fault = C.CLUBPASS_MEMORY
	NoForm        Fault = C.CLUBPASS_NO_FORM
	BadAsk        Fault = C.CLUBPASS_BAD_ASK
	NotUnderstood Fault = C.CLUBPASS_NOT_UNDERSTOOD
	Denied        Fault = C.CLUBPASS_DENIED
)

var texts = map[Fault]string{
	TooLong: "too long", Malformed: "malformed", ThirdParty: "third-party caveat",
	TooMany: "too many caveats", Memory: "out of memory", NoForm: "no such form",
	BadAsk: "no such ask", NotUnderstood: "caveat not understood", Denied: "caveat denies",
}

func (fault Fault) Error() string {
	if text, ok := texts[fault]; ok {
		return text
	}
	return fmt.Sprintf("fault %d", int(fault))
}

// A Form is one of the three forms in which a text can encode a pass.
type Form uint32

const (
	V1   Form = C.CLUBPASS_V1
	V2   Form = C.CLUBPASS_V2
	JSON Form = C.CLUBPASS_JSON
)

func (form Form) String() string {
	return map[Form]string{V1: "v1", V2: "v2", JSON: "json"}[form]
}

// A Pass stores a pass, and the form of the text that the pass was read from.
type Pass struct {
	object C.clubpass
}

var none [1]byte

// at returns a pointer to the first byte. The pointer is never nil, even if there are no bytes.
func at(data []byte) *C.uint8_t {
	if len(data) == 0 {
		return (*C.uint8_t)(unsafe.Pointer(&none[0]))
	}
	return (*C.uint8_t)(unsafe.Pointer(&data[0]))
}

func check(code C.clubpass_fault) error {
	if code == C.CLUBPASS_OK {
		return nil
	}
	return Fault(code)
}

// Parse reads a pass from its text in any form.
func Parse(text []byte) (Pass, error) {
	var made Pass
	err := check(C.clubpass_read(at(text), C.size_t(len(text)), &made.object))
	return made, err
}

// Mint makes a new pass without caveats, signed under a root.
func Mint(root, identifier, location []byte) (Pass, error) {
	var made Pass
	err := check(C.clubpass_mint(at(root), C.size_t(len(root)), at(location),
		C.size_t(len(location)), at(identifier), C.size_t(len(identifier)), &made.object))
	return made, err
}

// Narrow returns the pass with these caveats added.
func (pass Pass) Narrow(caveats ...string) (Pass, error) {
	for _, caveat := range caveats {
		data := []byte(caveat)
		err := check(C.clubpass_narrow(&pass.object, at(data), C.size_t(len(data))))
		if err != nil {
			return Pass{}, err
		}
	}
	return pass, nil
}

// Verify returns whether the root signed the pass with its caveats. Verify doesn't test the
// caveats against a request.
func (pass *Pass) Verify(root []byte) bool {
	return bool(C.clubpass_is_signed(&pass.object, at(root), C.size_t(len(root))))
}

// Text returns the text of the pass in a form.
func (pass *Pass) Text(form Form) (string, error) {
	out := make([]byte, C.CLUBPASS_MAX_TEXT)
	var length C.size_t
	err := check(C.clubpass_write(
		&pass.object, C.uint32_t(form), at(out), C.size_t(len(out)), &length))
	return string(out[:length]), err
}

// Form returns the form of the text that the pass was read from, or V2 for a new pass.
func (pass *Pass) Form() Form { return Form(C.clubpass_form(&pass.object)) }

// Location returns a hint about where the pass is valid. The signature doesn't cover this hint.
func (pass *Pass) Location() []byte {
	out := make([]byte, C.CLUBPASS_ROOM)
	var length C.size_t
	_ = C.clubpass_location(&pass.object, at(out), C.size_t(len(out)), &length)
	return out[:length:length]
}

// Identifier returns the name of the root under which the pass was minted.
func (pass *Pass) Identifier() []byte {
	out := make([]byte, C.CLUBPASS_ROOM)
	var length C.size_t
	_ = C.clubpass_identifier(&pass.object, at(out), C.size_t(len(out)), &length)
	return out[:length:length]
}

// Caveats returns the caveats, in the order in which they were added.
func (pass *Pass) Caveats() []string {
	caveats := make([]string, C.clubpass_caveat_count(&pass.object))
	out := make([]byte, C.CLUBPASS_ROOM)
	for place := range caveats {
		var length C.size_t
		_ = C.clubpass_caveat(&pass.object, C.size_t(place), at(out), C.size_t(len(out)), &length)
		caveats[place] = string(out[:length])
	}
	return caveats
}

// Signature returns the last signature of the chain.
func (pass *Pass) Signature() (signature [32]byte) {
	C.clubpass_signature(&pass.object, at(signature[:]))
	return signature
}

// IsCaveat returns whether a text is a caveat that the desk understands, such as "kind = court".
func IsCaveat(text string) bool {
	data := []byte(text)
	return bool(C.clubpass_is_caveat(at(data), C.size_t(len(data))))
}

// An Action is the action that a request asks for.
type Action uint32

const (
	View    Action = C.CLUBPASS_VIEW
	Book    Action = C.CLUBPASS_BOOK
	Cancel  Action = C.CLUBPASS_CANCEL
	Account Action = C.CLUBPASS_ACCOUNT
)

// A Kind is the kind of a facility.
type Kind uint32

const (
	NoKind Kind = C.CLUBPASS_NO_KIND
	Court  Kind = C.CLUBPASS_COURT
	Boat   Kind = C.CLUBPASS_BOAT
	Room   Kind = C.CLUBPASS_ROOM_KIND
)

// An Ask has the values of a request that caveats restrict. Without a facility there is no slot,
// and calls ignore Day and Hour. Moment and Day are the club's local time. Calls ignore the time
// zones of Moment and Day.
type Ask struct {
	Action      Action
	Kind        Kind
	Moment      time.Time
	Facility    string
	Day         time.Time
	Hour        int
	Guests      int
	Owed, Spent uint64
}

// civil returns the seconds from 1970-01-01T00:00 to the local time of a moment in its own zone.
func civil(moment time.Time) int64 {
	_, offset := moment.Zone()
	return moment.Unix() + int64(offset)
}

// object returns the Ask as a C struct, or false if a value is out of the struct's range.
func (ask *Ask) object() (C.clubpass_ask, bool) {
	made := C.clubpass_ask{
		owed: C.uint64_t(ask.Owed), spent: C.uint64_t(ask.Spent), action: C.uint32_t(ask.Action),
		kind: C.uint32_t(ask.Kind), guests: C.uint8_t(ask.Guests),
	}
	seconds := civil(ask.Moment)
	if ask.Guests < 0 || ask.Guests > 255 || len(ask.Facility) > C.CLUBPASS_MAX_NAME {
		return made, false
	}
	if seconds < 0 || seconds/60 > 1<<32-1 {
		return made, false
	}
	made.moment = C.uint32_t(seconds / 60)
	if ask.Facility == "" {
		return made, true
	}
	seconds = civil(ask.Day)
	if ask.Hour < 0 || ask.Hour > 255 || seconds < 0 || seconds/86400 > 1<<16-1 {
		return made, false
	}
	made.day, made.hour = C.uint16_t(seconds/86400), C.uint8_t(ask.Hour)
	made.facility_len = C.uint8_t(len(ask.Facility))
	for place, letter := range []byte(ask.Facility) {
		made.facility[place] = C.uint8_t(letter)
	}
	return made, true
}

// FirstFault tests the caveats one after another, but not the signature. If each caveat allows the
// request, FirstFault returns 0 and nil. Otherwise FirstFault returns the number, from 1, of the
// first caveat that doesn't allow the request. The error is then NotUnderstood or Denied. If a
// value of the request is out of range, FirstFault returns 0 and BadAsk.
func (pass *Pass) FirstFault(ask Ask) (int, error) {
	made, ok := ask.object()
	if !ok {
		return 0, BadAsk
	}
	var number C.size_t
	err := check(C.clubpass_first_fault(&pass.object, &made, &number))
	return int(number), err
}
