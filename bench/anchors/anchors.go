// What Go's crypto/x509 finds of a certificate: for bench/anchors/anchors.py.
//
//	anchors LEAF POOL ANCHORS
//
// The files have certificates in PEM.  Printed is `found`, or why there is no path.
package main

import (
	"crypto/x509"
	"encoding/pem"
	"fmt"
	"os"
)

func certificates(path string) []*x509.Certificate {
	octets, err := os.ReadFile(path)
	if err != nil {
		panic(err)
	}
	var all []*x509.Certificate
	for block, rest := pem.Decode(octets); block != nil; block, rest = pem.Decode(rest) {
		certificate, err := x509.ParseCertificate(block.Bytes)
		if err != nil {
			panic(err)
		}
		all = append(all, certificate)
	}
	return all
}

func pool(path string) *x509.CertPool {
	all := x509.NewCertPool()
	for _, certificate := range certificates(path) {
		all.AddCert(certificate)
	}
	return all
}

func main() {
	_, err := certificates(os.Args[1])[0].Verify(x509.VerifyOptions{
		Intermediates: pool(os.Args[2]),
		Roots:         pool(os.Args[3]),
		KeyUsages:     []x509.ExtKeyUsage{x509.ExtKeyUsageAny},
	})
	if err != nil {
		fmt.Println(err)
		return
	}
	fmt.Println("found")
}
