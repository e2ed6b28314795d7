// What Go's crypto/x509 finds of certificates: for tools/interop/anchored_paths.py.
//
//	anchored_paths FOLDER SECONDS
//
// FOLDER has certificates in DER, named by numbers.  Each line of standard input has the number of
// a certificate, those of a pool and those of roots, the latter two joined by commas, `-` for none.
// For each a line is printed: `found` and how many parents the shortest chain has at these seconds
// since 1970, or why there is none.
package main

import (
	"bufio"
	"crypto/x509"
	"fmt"
	"os"
	"path/filepath"
	"strconv"
	"strings"
	"time"
)

var read = map[string]*x509.Certificate{}

func must(err error) {
	if err != nil {
		panic(err)
	}
}

func certificate(number string) *x509.Certificate {
	if read[number] == nil {
		octets, err := os.ReadFile(filepath.Join(os.Args[1], number+".der"))
		must(err)
		read[number], err = x509.ParseCertificate(octets)
		must(err)
	}
	return read[number]
}

func pool(numbers string) *x509.CertPool {
	all := x509.NewCertPool()
	if numbers == "-" {
		return all
	}
	for _, number := range strings.Split(numbers, ",") {
		all.AddCert(certificate(number))
	}
	return all
}

func main() {
	seconds, err := strconv.ParseInt(os.Args[2], 10, 64)
	must(err)
	lines := bufio.NewScanner(os.Stdin)
	for lines.Scan() {
		words := strings.Fields(lines.Text())
		chains, err := certificate(words[0]).Verify(x509.VerifyOptions{
			Intermediates: pool(words[1]),
			Roots:         pool(words[2]),
			CurrentTime:   time.Unix(seconds, 0),
			KeyUsages:     []x509.ExtKeyUsage{x509.ExtKeyUsageAny},
		})
		if err != nil {
			fmt.Println(strings.ReplaceAll(err.Error(), "\n", " "))
			continue
		}
		fewest := len(chains[0])
		for _, chain := range chains {
			if len(chain) < fewest {
				fewest = len(chain)
			}
		}
		fmt.Println("found", fewest-1)
	}
	must(lines.Err())
}
