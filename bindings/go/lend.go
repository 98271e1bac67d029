// Narrows a pass. Prints the narrowed pass, and whether README's root signed it: lend < PASS.
package main

import (
	"bytes"
	"encoding/hex"
	"fmt"
	"io"
	"log"
	"os"

	"clubpass"
)

func main() {
	root, _ := hex.DecodeString("00112233445566778899aabbccddeeff")
	text, err := io.ReadAll(os.Stdin)
	if err != nil {
		log.Fatal(err)
	}
	pass, err := clubpass.Parse(bytes.TrimSpace(text))
	if err != nil {
		log.Fatal(err)
	}
	lent, err := pass.Narrow("kind = court")
	if err != nil {
		log.Fatal(err)
	}
	written, err := lent.Text(lent.Form())
	if err != nil {
		log.Fatal(err)
	}
	fmt.Println(written)
	fmt.Println(map[bool]string{true: "signed", false: "not signed"}[lent.Verify(root)])
}
