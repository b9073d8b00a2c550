package main

import (
	"bufio"
	"bytes"
	"encoding/json"
	"errors"
	"fmt"
	"io"
	"os"
	"os/exec"
	"path"
	"path/filepath"
	"regexp"
	"sort"
	"strings"
)

// above is the module that all workspaces of several packages lie in, each at a path of its own right below.
const above = "ex.com"

// filesOfArchive gives the texts of an archive by their places.
func filesOfArchive(archive string) map[string]string {
	texts, where := map[string]string{}, ""
	for _, line := range strings.SplitAfter(archive, "\n") {
		if strings.HasPrefix(line, "-- ") && strings.HasSuffix(line, " --\n") {
			where = strings.TrimSuffix(line[3:], " --\n")
			texts[where] = ""
		} else if where != "" {
			texts[where] += line
		}
	}
	return texts
}

// rootOf is the module of an archive: the first two elements of its paths.
func rootOf(texts map[string]string) string {
	for where := range texts {
		elements := strings.Split(where, "/")
		return path.Join(elements[0], elements[1])
	}
	return above
}

// writeFolder writes files into a folder, by what stands behind a path.
func writeFolder(folder, root string, texts map[string]string) {
	for where, text := range texts {
		file := filepath.Join(folder, strings.TrimPrefix(where, root+"/"))
		if err := os.MkdirAll(filepath.Dir(file), 0o777); err != nil {
			fail(err)
		}
		if err := os.WriteFile(file, []byte(text), 0o666); err != nil {
			fail(err)
		}
	}
}

// A told is a fault as `govisd check --json` tells it.
type told struct {
	Package, File, Rule, Meaning string
	Line, Column, Offset         int
}

// ask writes archives as folders, checks each by `govisd check FOLDER --module PATH --json`, and writes the answers in the format of test_cases, with
// all that is refused as faults.
func ask(program, folder string, files []string, out io.Writer) {
	for _, file := range files {
		archive, err := os.ReadFile(file)
		if err != nil {
			fail(err)
		}
		texts := filesOfArchive(string(archive))
		root := rootOf(texts)
		if err := os.RemoveAll(folder); err != nil {
			fail(err)
		}
		writeFolder(folder, root, texts)
		fmt.Fprintf(out, "== %s\n", file)
		writeTold(out, file, texts, checkFolder(program, folder, root, file))
	}
}

// checkFolder runs the program on a folder, and holds its status and standard error against what it tells.
func checkFolder(program, folder, root, file string) []told {
	faults, said, status := runCheck(program, folder, root, file)
	if said != "" || (status == 1) != (len(faults) > 0) || status < 0 || status > 1 {
		fail(fmt.Errorf("%s: status %d with %d faults: %s", file, status, len(faults), said))
	}
	return faults
}

// runCheck gives what the program tells of a folder, what it says on standard error, and its status, below 0 where a signal ended it.
func runCheck(program, folder, root, file string) ([]told, string, int) {
	var out, said bytes.Buffer
	run := exec.Command(program, "check", folder, "--module", root, "--json")
	run.Stdout, run.Stderr = &out, &said
	err := run.Run()
	var ended *exec.ExitError
	if err != nil && !errors.As(err, &ended) {
		fail(err)
	}
	var faults []told
	lines := json.NewDecoder(&out)
	for {
		var one told
		if err := lines.Decode(&one); err == io.EOF {
			break
		} else if err != nil {
			fail(fmt.Errorf("%s: %v: %s", file, err, said.String()))
		}
		faults = append(faults, one)
	}
	return faults, said.String(), run.ProcessState.ExitCode()
}

// writeTold writes the answer to an archive. Line and column must be those of the offset. K4 says no more than the fault of a file that stands beside it.
func writeTold(out io.Writer, file string, texts map[string]string, faults []told) {
	byFile, beside := map[string][]told{}, map[string]bool{}
	for _, one := range faults {
		where := one.Package + "/" + path.Base(one.File)
		before := texts[where][:one.Offset]
		if line, column := 1+strings.Count(before, "\n"), one.Offset-strings.LastIndex(before, "\n"); line != one.Line || column != one.Column {
			fail(fmt.Errorf("%s: %s:%d is line %d and column %d, and not %d and %d", file, where, one.Offset, line, column, one.Line, one.Column))
		}
		byFile[where] = append(byFile[where], one)
		if one.Rule != "K4" {
			beside[where] = true
		}
	}
	var places []string
	for where := range texts {
		places = append(places, where)
	}
	sort.Strings(places)
	last := ""
	for _, where := range places {
		if from := path.Dir(where); from != last {
			last = from
			fmt.Fprintf(out, "package %s %s\n", from, path.Base(from))
		}
		fmt.Fprintf(out, "file %s\n", path.Base(where))
		for _, one := range byFile[where] {
			if one.Rule != "K4" || !beside[where] {
				fmt.Fprintf(out, "fault %d %s\n", one.Offset, one.Rule)
			}
		}
	}
}

// A listed is what `go list -json` says of a package.
type listed struct {
	ImportPath string
	Error      *listError
	DepsErrors []*listError
}

type listError struct {
	ImportStack []string
	Pos, Err    string
}

// What the go command says of imports, and the rule that it is.
var listRules = []struct {
	said *regexp.Regexp
	rule string
}{
	{regexp.MustCompile(`use of internal package \S+ not allowed`), "I3"},
	{regexp.MustCompile(`is a program, not an importable package`), "I5"},
	{regexp.MustCompile(`cannot find (module|package)|no required module provides|is not in (GOROOT|std)|no Go files in|invalid import path|malformed import path|is relative, but relative import paths are not supported|cannot import absolute path|invalid package name|can only use path|non-canonical|must not end|must be absolute`), "I2"},
}

// list writes archives as packages of one module, asks `go list` about all of them, and writes what it refuses: lines `import FILE:LINE RULE`,
// `cycle PATH` for a package on a cycle, `clauses PATH` for one whose files have several names, and `other PATH MESSAGE`.
func list(goCommand, folder string, files []string, out io.Writer) {
	if err := os.RemoveAll(folder); err != nil {
		fail(err)
	}
	for _, file := range files {
		archive, err := os.ReadFile(file)
		if err != nil {
			fail(err)
		}
		writeFolder(folder, above, filesOfArchive(string(archive)))
	}
	if err := os.WriteFile(filepath.Join(folder, "go.mod"), []byte("module "+above+"\n\ngo 1.19\n"), 0o666); err != nil {
		fail(err)
	}
	run := exec.Command(goCommand, "list", "-e", "-json=ImportPath,Error,DepsErrors", "./...")
	run.Dir, run.Stderr = folder, io.Discard
	run.Env = append(os.Environ(), "GO111MODULE=on", "GOFLAGS=-mod=mod", "GOPROXY=off", "GOWORK=off", "GOTOOLCHAIN=local")
	said, err := run.Output()
	if err != nil {
		fail(err)
	}
	lines := map[string]bool{}
	for records := json.NewDecoder(bytes.NewReader(said)); ; {
		var one listed
		if err := records.Decode(&one); err == io.EOF {
			break
		} else if err != nil {
			fail(err)
		}
		for _, found := range append(one.DepsErrors, one.Error) {
			if found != nil {
				lines[one.line(found)] = true
			}
		}
	}
	delete(lines, "")
	var sorted []string
	for line := range lines {
		sorted = append(sorted, line)
	}
	sort.Strings(sorted)
	for _, line := range sorted {
		fmt.Fprintln(out, line)
	}
}

// line is what an error says.
func (l *listed) line(found *listError) string {
	said := strings.Join(strings.Fields(found.Err), " ")
	if strings.Contains(said, "import cycle not allowed") {
		if len(found.ImportStack) == 0 {
			return "cycle " + l.ImportPath
		}
		return "cycle " + found.ImportStack[len(found.ImportStack)-1]
	}
	if strings.HasPrefix(said, "found packages") {
		if found == l.Error {
			return "clauses " + l.ImportPath
		}
		return ""
	}
	for _, one := range listRules {
		if at := strings.Split(found.Pos, ":"); one.said.MatchString(said) && len(at) > 1 {
			return fmt.Sprintf("import %s/%s:%s %s", above, at[0], at[1], one.rule)
		}
	}
	return "other " + l.ImportPath + " " + found.Pos + " " + said
}

// A listing is what the go command refuses.
type listing struct {
	imports  map[string]string // the rule by FILE:LINE
	packages map[string]bool   // those on cycles, as `cycle PATH`, and those with several names, as `clauses PATH`
	others   []string
}

// readListing reads what `list` wrote.
func readListing(name string) *listing {
	file, err := os.Open(name)
	if err != nil {
		fail(err)
	}
	defer file.Close()
	l := &listing{map[string]string{}, map[string]bool{}, nil}
	lines := bufio.NewScanner(file)
	lines.Buffer(make([]byte, 1<<20), 1<<26)
	for lines.Scan() {
		words := strings.Fields(lines.Text())
		switch words[0] {
		case "import":
			l.imports[words[1]] = words[2]
		case "other":
			l.others = append(l.others, lines.Text())
		default:
			l.packages[lines.Text()] = true
		}
	}
	return l
}
