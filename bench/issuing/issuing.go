// How long Go's crypto/x509 takes to judge a chain: for bench/issuing/issuing.py.
//
//	issuing FILE TIMES MOMENT
//
// FILE has a certificate, that of its issuer and a root, one after another; MOMENT is in seconds. For
// each job a line is printed: its name, 1 where it is done and 0 where it isn't, the nanoseconds that
// all took together, on all processors, and a sum. The arithmetic can't be left out: it is a job of
// its own, both signatures checked by the keys of their issuers.
package main

import (
	"crypto/x509"
	"fmt"
	"os"
	"strconv"
	"syscall"
	"time"
)

func now() int64 {
	var usage syscall.Rusage
	if err := syscall.Getrusage(syscall.RUSAGE_SELF, &usage); err != nil {
		panic(err)
	}
	return usage.Utime.Nano() + usage.Stime.Nano()
}

func judged(all []*x509.Certificate, moment time.Time) int {
	roots, between := x509.NewCertPool(), x509.NewCertPool()
	roots.AddCert(all[2])
	between.AddCert(all[1])
	chains, err := all[0].Verify(x509.VerifyOptions{
		Roots: roots, Intermediates: between, CurrentTime: moment, KeyUsages: []x509.ExtKeyUsage{x509.ExtKeyUsageAny},
	})
	if err != nil {
		return 0
	}
	return len(chains[0])
}

func arithmetic(all []*x509.Certificate) int {
	for place := 0; place < 2; place++ {
		one := all[place]
		if all[place+1].CheckSignature(one.SignatureAlgorithm, one.RawTBSCertificate, one.Signature) != nil {
			return 0
		}
	}
	return 3
}

func read(octets []byte) []*x509.Certificate {
	all, err := x509.ParseCertificates(octets)
	if err != nil {
		panic(err)
	}
	return all
}

func printJob(name string, times int, job func() int) {
	done := 0
	if job() > 0 {
		done = 1
	}
	sum, start := 0, now()
	for round := 0; round < times; round++ {
		sum += job()
	}
	fmt.Printf("%s %d %d %d\n", name, done, now()-start, sum)
}

func number(word string) int {
	value, err := strconv.Atoi(word)
	if err != nil {
		panic(err)
	}
	return value
}

func main() {
	octets, err := os.ReadFile(os.Args[1])
	if err != nil {
		panic(err)
	}
	times, moment := number(os.Args[2]), time.Unix(int64(number(os.Args[3])), 0)
	all := read(octets)
	printJob("judged", times, func() int { return judged(all, moment) })
	printJob("read", times, func() int { return judged(read(octets), moment) })
	printJob("arithmetic", times, func() int { return arithmetic(all) })
}
