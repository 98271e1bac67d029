// Does the same as tell.c, with the package for Go.
package main

import (
	"bufio"
	"encoding/hex"
	"errors"
	"fmt"
	"os"
	"strconv"
	"strings"
	"time"

	"clubpass"
)

func spelled(data []byte) string {
	if len(data) == 0 {
		return "-"
	}
	return hex.EncodeToString(data)
}

func number(err error) int {
	var fault clubpass.Fault
	if !errors.As(err, &fault) {
		panic(err)
	}
	return int(fault)
}

func read(text string) []byte {
	data, err := hex.DecodeString(strings.TrimSuffix(text, "-"))
	if err != nil {
		panic(err)
	}
	return data
}

func must[T any](value T, err error) T {
	if err != nil {
		panic(err)
	}
	return value
}

func tellPass(root, text string) string {
	pass, err := clubpass.Parse(read(text))
	if err != nil {
		return fmt.Sprint("fault ", number(err))
	}
	caveats := []string{}
	for _, caveat := range pass.Caveats() {
		caveats = append(caveats, spelled([]byte(caveat)))
	}
	if len(caveats) == 0 {
		caveats = []string{"-"}
	}
	signature := pass.Signature()
	told := []string{pass.Form().String(), spelled(pass.Location()), spelled(pass.Identifier()), strings.Join(caveats, ","), spelled(signature[:])}
	for _, form := range []clubpass.Form{clubpass.V1, clubpass.V2, clubpass.JSON} {
		text, err := pass.Text(form)
		if err != nil {
			told = append(told, fmt.Sprintf("fault-%d", number(err)))
		} else {
			told = append(told, spelled([]byte(text)))
		}
	}
	minted := must(clubpass.Mint(read(root), pass.Identifier(), pass.Location()))
	again := must(minted.Narrow(pass.Caveats()...))
	signature = again.Signature()
	told = append(told, spelled(signature[:]))
	if pass.Verify(read(root)) {
		told = append(told, "signed")
	} else {
		told = append(told, "not signed")
	}
	return strings.Join(told, " ")
}

func tellCaveat(text string) string {
	return map[bool]string{true: "yes", false: "no"}[clubpass.IsCaveat(string(read(text)))]
}

func tellVerdict(words []string) string {
	pass := must(clubpass.Parse(read(words[0])))
	ask := clubpass.Ask{
		Action: map[string]clubpass.Action{"view": clubpass.View, "book": clubpass.Book, "cancel": clubpass.Cancel, "account": clubpass.Account}[words[1]],
		Kind:   map[string]clubpass.Kind{"court": clubpass.Court, "boat": clubpass.Boat, "room": clubpass.Room}[words[2]],
		Moment: must(time.Parse("2006-01-02T15:04", words[3])),
		Guests: must(strconv.Atoi(words[7])),
		Owed:   must(strconv.ParseUint(words[8], 10, 64)),
		Spent:  must(strconv.ParseUint(words[9], 10, 64)),
	}
	if words[4] != "-" {
		ask.Facility, ask.Day, ask.Hour = words[4], must(time.Parse("2006-01-02", words[5])), must(strconv.Atoi(words[6]))
	}
	at, err := pass.FirstFault(ask)
	switch {
	case err == nil:
		return "allows"
	case errors.Is(err, clubpass.Denied):
		return fmt.Sprint("denies ", at)
	case errors.Is(err, clubpass.NotUnderstood):
		return fmt.Sprint("not understood ", at)
	}
	return "no ask"
}

func main() {
	lines := bufio.NewScanner(os.Stdin)
	lines.Buffer(nil, 1<<20)
	for lines.Scan() {
		words := strings.Fields(lines.Text())
		switch words[0] {
		case "pass":
			fmt.Println(tellPass(words[1], words[2]))
		case "caveat":
			fmt.Println(tellCaveat(words[1]))
		default:
			fmt.Println(tellVerdict(words[1:]))
		}
	}
}
