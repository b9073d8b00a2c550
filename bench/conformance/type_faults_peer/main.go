// Type_faults_peer reads archives of workspaces (the form of txtar) and writes what go/types refuses in each: a line for each error, by package,
// with its place, whether it continues the error before (1) or not (0), and its message in one line.
//
//	type_faults_peer FILE..
//
// A line `== FILE` stands before the errors of an archive. Embedded fields and the names of types stand, as go/types has them, at their first byte.
package main

import (
	"bufio"
	"fmt"
	"go/ast"
	"go/parser"
	"go/token"
	"go/types"
	"os"
	"sort"
	"strings"
)

// A workspace has files by package, and the packages that were checked.
type workspace struct {
	fset    *token.FileSet
	files   map[string][]*ast.File
	checked map[string]*types.Package
	lines   []string
}

// complain notes an error. Those of go/types that begin with a tab continue the one before.
func (w *workspace) complain(err error) {
	place, text := token.Position{}, err.Error()
	if e, ok := err.(types.Error); ok {
		place, text = w.fset.Position(e.Pos), e.Msg
	}
	more := 0
	if strings.HasPrefix(text, "\t") {
		more = 1
	}
	w.lines = append(w.lines, fmt.Sprintf("%s:%d %d %s", place.Filename, place.Offset, more, strings.Join(strings.Fields(text), " ")))
}

// Import checks a package, once.
func (w *workspace) Import(path string) (*types.Package, error) {
	if p := w.checked[path]; p != nil {
		return p, nil
	}
	files := w.files[path]
	if files == nil {
		return nil, fmt.Errorf("no package %s", path)
	}
	config := types.Config{Importer: w, Error: w.complain, DisableUnusedImportCheck: true}
	p, _ := config.Check(path, w.fset, files, nil)
	w.checked[path] = p
	return p, nil
}

// add parses a file of a package.
func (w *workspace) add(place, text string) {
	file, err := parser.ParseFile(w.fset, place, text, 0)
	if err != nil {
		w.complain(err)
	}
	path := place[:strings.LastIndex(place, "/")]
	w.files[path] = append(w.files[path], file)
}

// read parses the files of an archive.
func (w *workspace) read(archive string) {
	place, text := "", ""
	for _, line := range strings.SplitAfter(archive, "\n") {
		if strings.HasPrefix(line, "-- ") && strings.HasSuffix(strings.TrimRight(line, "\n"), " --") {
			if place != "" {
				w.add(place, text)
			}
			place, text = strings.TrimSpace(strings.Trim(strings.TrimRight(line, "\n"), "-")), ""
			continue
		}
		text += line
	}
	if place != "" {
		w.add(place, text)
	}
}

func main() {
	out := bufio.NewWriter(os.Stdout)
	defer out.Flush()
	for _, file := range os.Args[1:] {
		text, err := os.ReadFile(file)
		if err != nil {
			fmt.Fprintln(os.Stderr, err)
			os.Exit(2)
		}
		w := &workspace{token.NewFileSet(), map[string][]*ast.File{}, map[string]*types.Package{}, nil}
		w.read(string(text))
		var paths []string
		for path := range w.files {
			paths = append(paths, path)
		}
		sort.Strings(paths)
		for _, path := range paths {
			w.Import(path)
		}
		fmt.Fprintf(out, "== %s\n", file)
		for _, line := range w.lines {
			fmt.Fprintln(out, line)
		}
	}
}
