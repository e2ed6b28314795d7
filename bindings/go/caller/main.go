// As caller.c, by the calls of the package.
package main

import (
	"fmt"
	"os"
	"picky"
	"strconv"
	"strings"
)

func octetsOf(path string) []byte {
	if path == "-" {
		return nil
	}
	octets, err := os.ReadFile(path)
	if err != nil {
		panic(err)
	}
	return octets
}

// pieces gives the files of a pool, by their lengths.
func pieces(pool, lengths []byte) [][]byte {
	var files [][]byte
	for _, word := range strings.Fields(string(lengths)) {
		length, err := strconv.Atoi(word)
		if err != nil {
			panic(err)
		}
		files = append(files, pool[:length])
		pool = pool[length:]
	}
	return files
}

func show(answer picky.Answer) {
	fmt.Print(answer.Status, " ", answer.Line)
	if answer.Line != "" {
		fmt.Println()
	}
}

func parseAndShow(step rune, table *picky.Table, text []byte) {
	status := 0
	if err := table.Parse(text); err != nil {
		status = err.(picky.TableError).Status
	}
	fmt.Printf("%c%d ", step, status)
}

func main() {
	kind, words := os.Args[1], os.Args[5:]
	file, text, list := octetsOf(os.Args[2]), octetsOf(os.Args[3]), octetsOf(os.Args[4])
	var table picky.Table
	defer table.Close()
	steps, hasSteps := os.LookupEnv("STEPS")
	if !hasSteps {
		switch kind {
		case "pe":
			show(picky.CheckProgram(words, file, text, list))
		case "chain":
			show(picky.Chain(words, text, pieces(file, list)))
		case "ask":
			show(picky.Questions(words, pieces(file, list)))
		default:
			show(picky.Check(words, file, text, list))
		}
	}
	for _, step := range steps {
		switch step {
		case 'c':
			switch kind {
			case "pe":
				show(picky.CheckProgramWithTable(words, file, &table, list))
			case "chain":
				show(picky.ChainWithTable(words, &table, pieces(file, list)))
			default:
				show(picky.CheckWithTable(words, file, &table, list))
			}
		case 'p':
			parseAndShow(step, &table, text)
		case 'b':
			parseAndShow(step, &table, []byte("x\n"))
		case 'e':
			parseAndShow(step, &table, nil)
		case 'l':
			parseAndShow(step, &table, octetsOf(os.Getenv("LONG")))
		case 'f':
			table.Close()
		}
	}
}
