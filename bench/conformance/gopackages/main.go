// Gopackages makes packages of the grammar of docs/RULES.md, correct ones and ones with one error put in, tells by go/types what stands in them, and
// compares that with what `test_cases` answers.
//
//	gopackages generate FOLDER COUNT SEED    writes COUNT archives of workspaces (the form of txtar), the same bytes for each seed
//	gopackages table FOLDER                  writes the table of mistakes as a worked archive, table.txt, with the faults in it as comments
//	gopackages judge FILE..                  what go/types says, in the format of test_cases, with its errors
//	gopackages fake [-list LISTING] FILE..   an answer in the format of test_cases: what go/types says of names, and the faults that were put in
//	gopackages compare [-show N] [-refusals] [-list LISTING] ANSWERS FILE..    compares the answers of test_cases to the archives with go/types
//	gopackages several FOLDER COUNT SEED     writes COUNT archives of workspaces of 2 to 12 packages, the same bytes for each seed
//	gopackages ask PROGRAM FOLDER FILE..     what `govisd check` answers to these, in the format of test_cases, each written into the folder
//	gopackages list GO FOLDER FILE..         what `go list` refuses of these, all of them one module in the folder
//	gopackages reduce MODULE FOLDER ROOT..   writes the packages below folders as a workspace of a module, without what is outside the grammar
//	gopackages own MODULE FOLDER WHOLE       writes such a workspace again, without what only govisd refuses
//	gopackages checked PROGRAM FOLDER MODULE what `govisd check` finds in it
//	gopackages query [-list LISTING] [-every N] [-outside N] FILE..   what each identifier denotes and which names may stand in its place, for queries.py
//	gopackages document [-list LISTING] [-beside] FILE..   what stands behind a variable of each type, for queries.py
//	gopackages refused PROGRAM FOLDER MODULE WHOLE   whether `govisd check` refuses of the whole what is left out of the folder, and nothing else
//
// The status is 0 where nothing differs but in the ways that are named, 1 where something does, 2 where a run fails.
package main

import (
	"bufio"
	"flag"
	"fmt"
	"os"
	"path/filepath"
	"runtime"
	"strconv"
	"sync"
)

// number reads an argument that is a number.
func number(word string) int64 {
	n, err := strconv.ParseInt(word, 10, 64)
	if err != nil {
		fail(err)
	}
	return n
}

// fail ends the run.
func fail(err error) {
	fmt.Fprintln(os.Stderr, "gopackages:", err)
	os.Exit(2)
}

// generate writes the archives, and how many there are of each form.
func generate(folder string, count int, seed int64, make func(seed int64, n int) (string, string)) {
	if err := os.MkdirAll(folder, 0o777); err != nil {
		fail(err)
	}
	forms := map[string]int{}
	var lock sync.Mutex
	var workers sync.WaitGroup
	for first := 0; first < runtime.NumCPU(); first++ {
		workers.Add(1)
		go func(first int) {
			defer workers.Done()
			for n := first; n < count; n += runtime.NumCPU() {
				form, text := make(seed*1000003+int64(n), n)
				if err := os.WriteFile(filepath.Join(folder, fmt.Sprintf("%05d.txt", n)), []byte(text), 0o666); err != nil {
					fail(err)
				}
				lock.Lock()
				forms[form]++
				lock.Unlock()
			}
		}(first)
	}
	workers.Wait()
	writeCounts(os.Stdout, "form", forms)
}

// tell writes what go/types says of archives; the faults that were put in stand in place of its errors in a fake answer.
func tell(files []string, isFake bool) {
	out := bufio.NewWriter(os.Stdout)
	defer out.Flush()
	for _, file := range files {
		text, err := os.ReadFile(file)
		if err != nil {
			fail(err)
		}
		judged := judge(string(text))
		fmt.Fprintf(out, "== %s\n", file)
		if isFake {
			judged.writeFake(out)
		} else {
			judged.write(out)
		}
	}
}

// tellAll writes on standard output.
func tellAll(write func(out *bufio.Writer)) {
	out := bufio.NewWriter(os.Stdout)
	defer out.Flush()
	write(out)
}

func main() {
	show := flag.Int("show", 40, "how many differences are printed")
	listed := flag.String("list", "", "what the go command refuses, for workspaces of several packages")
	every := flag.Int("every", 1, "each so many identifiers have all names put in their place")
	outside := flag.Int("outside", 1, "outside functions each so many, of which also -every holds")
	beside := flag.Bool("beside", false, "types of a package are asked from the one before it too, which does not import it")
	flag.BoolVar(&onlyRefusals, "refusals", false, "the answers tell no more than what is refused")
	if len(os.Args) < 3 {
		fail(fmt.Errorf("usage: gopackages generate FOLDER COUNT SEED | several FOLDER COUNT SEED | table FOLDER | ask PROGRAM FOLDER FILE.. | list GO FOLDER FILE.. | judge FILE.. | fake FILE.. | compare ANSWERS FILE.."))
	}
	mode := os.Args[1]
	flag.CommandLine.Parse(os.Args[2:])
	words := flag.Args()
	switch {
	case mode == "generate" && len(words) == 3:
		generate(words[0], int(number(words[1])), number(words[2]), workspaceText)
	case mode == "several" && len(words) == 3:
		localNames = append(localNames, hidden...)
		generate(words[0], int(number(words[1])), number(words[2]), severalText)
	case mode == "ask" && len(words) > 2:
		tellAll(func(out *bufio.Writer) { ask(words[0], words[1], words[2:], out) })
	case mode == "list" && len(words) > 2:
		tellAll(func(out *bufio.Writer) { list(words[0], words[1], words[2:], out) })
	case mode == "table" && len(words) == 1:
		writeTable(words[0])
	case mode == "judge":
		tell(words, false)
	case mode == "fake":
		if *listed != "" {
			goList = readListing(*listed)
		}
		tell(words, true)
	case mode == "query":
		if *listed != "" {
			goList = readListing(*listed)
		}
		queryAll(words, *every, *outside)
	case mode == "document":
		if *listed != "" {
			goList = readListing(*listed)
		}
		documentAll(words, *beside)
	case mode == "reduce" && len(words) > 2:
		reduceAll(words[0], words[1], false, words[2:])
	case mode == "own" && len(words) == 3:
		reduceAll(words[0], words[1], true, words[2:])
	case mode == "refused" && len(words) == 4:
		os.Exit(checkOwn(words[0], words[1], words[2], words[3]))
	case mode == "checked" && len(words) == 3:
		os.Exit(checkReduced(words[0], words[1], words[2]))
	case mode == "compare" && len(words) > 0:
		if *listed != "" {
			goList = readListing(*listed)
		}
		os.Exit(compareAll(words[0], words[1:], *show))
	default:
		fail(fmt.Errorf("no such mode: %s", mode))
	}
}
