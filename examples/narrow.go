// Narrows passes in V1, V2 or JSON with the package macaroon.v2: narrow CAVEAT.. < passes
//
// Reads one pass per line. Prints each pass in its original form, with the new caveats after the
// old caveats. The program needs the Debian packages golang-go and golang-gopkg-macaroon.v2-dev.
// Build the program with
//
//	GO111MODULE=off GOPATH=/usr/share/gocode go build narrow.go
package main

import (
	"bufio"
	"encoding/base64"
	"encoding/json"
	"fmt"
	"log"
	"os"
	"strings"

	"gopkg.in/macaroon.v2"
)

// narrow returns the pass with the new caveats.
func narrow(text string, caveats []string) (string, error) {
	var pass macaroon.Macaroon
	isJSON := strings.HasPrefix(text, "{")
	if isJSON {
		if err := json.Unmarshal([]byte(text), &pass); err != nil {
			return "", err
		}
	} else {
		raw, err := macaroon.Base64Decode([]byte(text))
		if err != nil {
			return "", err
		}
		if err := pass.UnmarshalBinary(raw); err != nil {
			return "", err
		}
	}
	for _, caveat := range caveats {
		if err := pass.AddFirstPartyCaveat([]byte(caveat)); err != nil {
			return "", err
		}
	}
	if isJSON {
		raw, err := json.Marshal(&pass)
		return string(raw), err
	}
	raw, err := pass.MarshalBinary()
	return base64.RawURLEncoding.EncodeToString(raw), err
}

func main() {
	passes := bufio.NewScanner(os.Stdin)
	for passes.Scan() {
		narrowed, err := narrow(passes.Text(), os.Args[1:])
		if err != nil {
			log.Fatal(err)
		}
		fmt.Println(narrowed)
	}
	if err := passes.Err(); err != nil {
		log.Fatal(err)
	}
}
