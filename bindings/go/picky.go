// Package picky checks Authenticode signatures over octets in memory, by the static library
// libpicky_door.a. CGO_CFLAGS and CGO_LDFLAGS say where picky.h and the libraries are.
//
// Status 0 isn't enough to install a program. An accepted signature with an empty path= is vouched for by
// nobody: anyone can make its certificate. A path is worth what its last certificate is, since no root is
// checked. So compare the whole line with the one that you expect, and pin the signer's key (a table without
// rows of other keys) or find a path to a root that you trust (as the last certificate of Chain):
// docs/MANUAL.md, "Who signed".
package picky

/*
#cgo LDFLAGS: -lpicky_door -llibc_c
#include "picky.h"
*/
import "C"

import (
	"fmt"
	"strings"
	"sync"
	"unsafe"
)

// Answer has a status, and the line without its newline, empty where there is none.
type Answer struct {
	Status int
	Line   string
}

const (
	usage  = 2
	noRoom = 5
)

// TableError says why no table was parsed: 3 for a bad line, 7 for lack of memory.
type TableError struct {
	Status int
}

func (err TableError) Error() string {
	return fmt.Sprintf("no verdict table: status %d", err.Status)
}

// Table is a verdict table that was parsed once, for many calls; of those at once, each waits for the one
// before. The zero value has no table; then the file TABLE isn't there. Close frees it. It must not be
// copied.
type Table struct {
	lock   sync.Mutex
	handle C.picky_table
}

// Parse takes the table of a text; after an error it is as it was.
func (table *Table) Parse(text []byte) error {
	rows, rowsLength := pointer(text)
	table.lock.Lock()
	defer table.lock.Unlock()
	if status := C.picky_table_parse(rows, rowsLength, &table.handle); status != 0 {
		return TableError{int(status)}
	}
	return nil
}

// Close frees the table; it may be called again.
func (table *Table) Close() {
	table.lock.Lock()
	defer table.lock.Unlock()
	C.picky_table_free(&table.handle)
}

// pointer gives the first octet; a slice without octets has none, and NULL isn't allowed.
func pointer(octets []byte) (*C.uint8_t, C.size_t) {
	if len(octets) == 0 {
		return (*C.uint8_t)(unsafe.Pointer(&make([]byte, 1)[0])), 0
	}
	return (*C.uint8_t)(unsafe.Pointer(&octets[0])), C.size_t(len(octets))
}

// pool gives files one after another, and their lengths.
func pool(files [][]byte) ([]byte, []C.size_t) {
	var octets []byte
	lengths := make([]C.size_t, 0, len(files)+1)
	for _, file := range files {
		octets = append(octets, file...)
		lengths = append(lengths, C.size_t(len(file)))
	}
	return octets, lengths
}

// withRoom makes a call with a buffer that has room for its line. A word with a newline would be two, so it
// has the status 2.
func withRoom(words []string, call func(line *C.uint8_t, room C.size_t, written *C.size_t) C.uint8_t) Answer {
	for _, word := range words {
		if strings.Contains(word, "\n") {
			return Answer{Status: usage}
		}
	}
	for room := 512; ; room *= 2 {
		line := make([]byte, room)
		out, outLength := pointer(line)
		var written C.size_t
		status := call(out, outLength, &written)
		if status != noRoom {
			return Answer{int(status), strings.TrimSuffix(string(line[:written]), "\n")}
		}
	}
}

func run(program bool, words []string, file, table, list []byte) Answer {
	text, textLength := pointer([]byte(strings.Join(words, "\n")))
	first, firstLength := pointer(file)
	second, secondLength := pointer(table)
	third, thirdLength := pointer(list)
	return withRoom(words, func(line *C.uint8_t, room C.size_t, written *C.size_t) C.uint8_t {
		if program {
			return C.picky_pe_bytes(text, textLength, first, firstLength, second, secondLength, third, thirdLength, line, room, written)
		}
		return C.picky_check_bytes(text, textLength, first, firstLength, second, secondLength, third, thirdLength, line, room, written)
	})
}

func runWithTable(program bool, words []string, file []byte, table *Table, list []byte) Answer {
	text, textLength := pointer([]byte(strings.Join(words, "\n")))
	first, firstLength := pointer(file)
	third, thirdLength := pointer(list)
	table.lock.Lock()
	defer table.lock.Unlock()
	return withRoom(words, func(line *C.uint8_t, room C.size_t, written *C.size_t) C.uint8_t {
		if program {
			return C.picky_pe_with_table(text, textLength, first, firstLength, &table.handle, third, thirdLength, line, room, written)
		}
		return C.picky_check_with_table(text, textLength, first, firstLength, &table.handle, third, thirdLength, line, room, written)
	})
}

// Check runs the command that the words request, which name the files SIG, TABLE and LIST.
func Check(words []string, signature, table, list []byte) Answer {
	return run(false, words, signature, table, list)
}

// CheckWithTable is Check with a table that was parsed before.
func CheckWithTable(words []string, signature []byte, table *Table, list []byte) Answer {
	return runWithTable(false, words, signature, table, list)
}

// CheckProgram checks a signed program, with words that name the files PROGRAM, TABLE and LIST.
func CheckProgram(words []string, program, table, list []byte) Answer {
	return run(true, words, program, table, list)
}

// CheckProgramWithTable is CheckProgram with a table that was parsed before.
func CheckProgramWithTable(words []string, program []byte, table *Table, list []byte) Answer {
	return runWithTable(true, words, program, table, list)
}

// Chain validates a certificate with its parents; words name the file TABLE and the certificates 0, 1 and so on.
func Chain(words []string, table []byte, certificates [][]byte) Answer {
	text, textLength := pointer([]byte(strings.Join(words, "\n")))
	rows, rowsLength := pointer(table)
	octets, lengths := pool(certificates)
	first, firstLength := pointer(octets)
	return withRoom(words, func(line *C.uint8_t, room C.size_t, written *C.size_t) C.uint8_t {
		return C.picky_chain_bytes(text, textLength, rows, rowsLength, first, firstLength, &lengths[:1][0], C.size_t(len(lengths)), line, room, written)
	})
}

// ChainWithTable is Chain with a table that was parsed before.
func ChainWithTable(words []string, table *Table, certificates [][]byte) Answer {
	text, textLength := pointer([]byte(strings.Join(words, "\n")))
	octets, lengths := pool(certificates)
	first, firstLength := pointer(octets)
	table.lock.Lock()
	defer table.lock.Unlock()
	return withRoom(words, func(line *C.uint8_t, room C.size_t, written *C.size_t) C.uint8_t {
		return C.picky_chain_with_table(text, textLength, &table.handle, first, firstLength, &lengths[:1][0], C.size_t(len(lengths)), line, room, written)
	})
}

// Questions gives the questions about a signature file or a chain, a line each; words name the files 0, 1 and so on.
func Questions(words []string, files [][]byte) Answer {
	text, textLength := pointer([]byte(strings.Join(words, "\n")))
	octets, lengths := pool(files)
	first, firstLength := pointer(octets)
	return withRoom(words, func(line *C.uint8_t, room C.size_t, written *C.size_t) C.uint8_t {
		return C.picky_ask_bytes(text, textLength, first, firstLength, &lengths[:1][0], C.size_t(len(lengths)), line, room, written)
	})
}
