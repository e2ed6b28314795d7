// How many elements a file of DER has, those inside others among them, with Go's cryptobyte: for
// bench/cursor/cursor.py.
package main

import (
	"fmt"
	"log"
	"os"

	"golang.org/x/crypto/cryptobyte"
	"golang.org/x/crypto/cryptobyte/asn1"
)

// constructed is the bit of an identifier octet that says so (X.690 8.1.2.5).
const constructed = 0x20

// count is how many elements some octets have, and whether they are elements.
func count(octets cryptobyte.String) (elements uint64, ok bool) {
	for !octets.Empty() {
		var contents cryptobyte.String
		var tag asn1.Tag
		if !octets.ReadAnyASN1(&contents, &tag) {
			return 0, false
		}
		elements++
		if tag&constructed != 0 {
			inner, ok := count(contents)
			if !ok {
				return 0, false
			}
			elements += inner
		}
	}
	return elements, true
}

func main() {
	octets, err := os.ReadFile(os.Args[1])
	if err != nil {
		log.Fatal(err)
	}
	elements, ok := count(octets)
	if !ok {
		log.Fatal("no elements")
	}
	fmt.Println(elements)
}
