// How long Go's crypto/x509 takes to read certificates: for bench/certificates/certificates.py.
//
//	certificates FILE TIMES
//
// FILE has certificates one after another. A line is printed: a name, for each certificate 1 where
// it is read and 0 where it isn't, the nanoseconds that all took together, on all processors, and a
// sum over what was read.
package main

import (
	"crypto/x509"
	"encoding/asn1"
	"fmt"
	"os"
	"strconv"
	"syscall"
)

func read(octets []byte) (int, bool) {
	certificate, err := x509.ParseCertificate(octets)
	if err != nil {
		return 0, false
	}
	return len(certificate.RawTBSCertificate), true
}

func now() int64 {
	var usage syscall.Rusage
	if err := syscall.Getrusage(syscall.RUSAGE_SELF, &usage); err != nil {
		panic(err)
	}
	return usage.Utime.Nano() + usage.Stime.Nano()
}

func certificates(octets []byte) [][]byte {
	var all [][]byte
	for len(octets) > 0 {
		var one asn1.RawValue
		rest, err := asn1.Unmarshal(octets, &one)
		if err != nil {
			panic(err)
		}
		all, octets = append(all, one.FullBytes), rest
	}
	return all
}

func main() {
	octets, err := os.ReadFile(os.Args[1])
	if err != nil {
		panic(err)
	}
	times, err := strconv.Atoi(os.Args[2])
	if err != nil {
		panic(err)
	}
	all := certificates(octets)
	which := make([]byte, 0, len(all))
	for _, one := range all {
		if _, ok := read(one); ok {
			which = append(which, '1')
		} else {
			which = append(which, '0')
		}
	}
	sum, start := 0, now()
	for round := 0; round < times; round++ {
		for _, one := range all {
			number, _ := read(one)
			sum += number
		}
	}
	fmt.Printf("go %s %d %d\n", which, now()-start, sum)
}
