// Goselect reads archives of workspaces (the form of txtar) and tells by go/types' LookupFieldOrMethod what selectors denote: the peer of
// `test_cases`, with its kinds and in its format as far as go/types answers.
//
//	goselect select FILE..      for each type of each package, for a value of it, a pointer to it and a pointer to that, and for each package in which a
//	                            selector may stand, what each name of a member of the workspace denotes. A selector that denotes nothing is `S2` where
//	                            go/types finds several members, else `none`
//	goselect selectable FILE..  in the same order the names that denote something, each with its path
//	goselect first FILE..       how many names but those of embedded fields are found behind a value of the first type of each package, in that package
//	goselect first10 FILE..     the same, where each is looked up ten times
//
// What go/types refuses of an archive goes to standard error, and the status is then 1.
package main

import (
	"bufio"
	"fmt"
	"go/ast"
	"go/parser"
	"go/token"
	"go/types"
	"os"
	"sort"
	"strings"
)

// A workspace has files by package, and the packages that were checked.
type workspace struct {
	fset    *token.FileSet
	files   map[string][]*ast.File
	texts   map[string]string
	checked map[string]*types.Package
	failed  bool
}

func (w *workspace) complain(err error) {
	fmt.Fprintln(os.Stderr, err)
	w.failed = true
}

// Import checks a package, once.
func (w *workspace) Import(path string) (*types.Package, error) {
	if p := w.checked[path]; p != nil {
		return p, nil
	}
	files := w.files[path]
	if files == nil {
		return nil, fmt.Errorf("no package %s", path)
	}
	config := types.Config{Importer: w, Error: w.complain, DisableUnusedImportCheck: true}
	p, _ := config.Check(path, w.fset, files, nil)
	w.checked[path] = p
	return p, nil
}

// add parses a file of a package.
func (w *workspace) add(place, text string) {
	slash := strings.LastIndex(place, "/")
	w.texts[place] = text
	file, err := parser.ParseFile(w.fset, place, text, 0)
	if err != nil {
		w.complain(err)
	}
	w.files[place[:slash]] = append(w.files[place[:slash]], file)
}

// read parses the files of an archive.
func (w *workspace) read(archive string) {
	place, text := "", ""
	for _, line := range strings.SplitAfter(archive, "\n") {
		if strings.HasPrefix(line, "-- ") && strings.HasSuffix(strings.TrimRight(line, "\n"), " --") {
			if place != "" {
				w.add(place, text)
			}
			place, text = strings.TrimSpace(strings.Trim(strings.TrimRight(line, "\n"), "-")), ""
			continue
		}
		text += line
	}
	if place != "" {
		w.add(place, text)
	}
}

// defined gives the types of a package that are no aliases in order of file and place.
func defined(p *types.Package) []*types.TypeName {
	var list []*types.TypeName
	for _, name := range p.Scope().Names() {
		if t, ok := p.Scope().Lookup(name).(*types.TypeName); ok && !t.IsAlias() {
			list = append(list, t)
		}
	}
	sort.Slice(list, func(i, j int) bool { return list[i].Pos() < list[j].Pos() })
	return list
}

// members adds the names of a type's members, those of embedded fields where they are asked for.
func members(names map[string]bool, t types.Type, embedded bool) {
	if n, ok := t.(*types.Named); ok {
		for i := 0; i < n.NumMethods(); i++ {
			names[n.Method(i).Name()] = true
		}
	}
	switch u := t.Underlying().(type) {
	case *types.Struct:
		for i := 0; i < u.NumFields(); i++ {
			if embedded || !u.Field(i).Embedded() {
				names[u.Field(i).Name()] = true
			}
		}
	case *types.Interface:
		for i := 0; i < u.NumMethods(); i++ {
			names[u.Method(i).Name()] = true
		}
	}
}

// shown tells what a selector denotes.
func (w *workspace) shown(t types.Type, from *types.Package, name string) string {
	if name == "_" {
		return "none"
	}
	object, index, indirect := types.LookupFieldOrMethod(t, true, from, name)
	if object == nil {
		if index != nil {
			return "S2"
		}
		return "none"
	}
	kind := "field"
	if _, ok := object.(*types.Func); ok {
		kind = "method"
	}
	place := "universe.error.Error"
	if object.Pkg() != nil {
		at := w.fset.Position(object.Pos())
		if v, ok := object.(*types.Var); ok && v.Embedded() {
			// go/types gives the start of what is embedded, and govisd the last identifier of its type's name
			written := w.texts[at.Filename][at.Offset:]
			if end := strings.IndexAny(written, " \n;}"); end >= 0 {
				written = written[:end]
			}
			at.Offset += strings.LastIndexAny(written, "*.") + 1
		}
		place = fmt.Sprintf("%s:%d", at.Filename, at.Offset)
	}
	steps := strings.Trim(fmt.Sprint(index[:len(index)-1]), "[]")
	line := fmt.Sprintf("%s %s [%s]", kind, place, steps)
	if indirect {
		line += " pointer"
	}
	return line
}

// names gives the paths of the packages and the names of the members of their types, each in order.
func (w *workspace) names(embedded bool) (paths, sorted []string) {
	for path := range w.files {
		paths = append(paths, path)
	}
	sort.Strings(paths)
	names := map[string]bool{"Error": true}
	for _, path := range paths {
		w.Import(path)
	}
	for _, path := range paths {
		for _, t := range defined(w.checked[path]) {
			members(names, t.Type(), embedded)
		}
	}
	for name := range names {
		sorted = append(sorted, name)
	}
	sort.Strings(sorted)
	return paths, sorted
}

// ask writes what selectors denote, or which names denote something, for each type with up to two stars and each package.
func (w *workspace) ask(out *bufio.Writer, kind string) {
	paths, names := w.names(true)
	for _, path := range paths {
		for _, t := range defined(w.checked[path]) {
			operand := t.Type()
			for stars := 0; stars < 3; stars++ {
				subject := fmt.Sprintf("%s%s.%s", strings.Repeat("*", stars), path, t.Name())
				for _, from := range paths {
					if kind == "select" {
						for _, name := range names {
							fmt.Fprintf(out, "%s.%s in %s: %s\n", subject, name, from, w.shown(operand, w.checked[from], name))
						}
					} else {
						fmt.Fprintf(out, "%s in %s:%s\n", subject, from, listed(operand, w.checked[from], names))
					}
				}
				operand = types.NewPointer(operand)
			}
		}
	}
}

// listed gives the names that denote something, each with its path.
func listed(t types.Type, from *types.Package, names []string) string {
	text := ""
	for _, name := range names {
		if name == "_" {
			continue
		}
		if object, index, _ := types.LookupFieldOrMethod(t, true, from, name); object != nil {
			text += fmt.Sprintf(" %s%v", name, index[:len(index)-1])
		}
	}
	return text
}

// count writes how many names are found behind the first type of each package.
func (w *workspace) count(out *bufio.Writer, times int) {
	paths, names := w.names(false)
	first := map[string]types.Type{}
	for _, path := range paths {
		if list := defined(w.checked[path]); len(list) > 0 {
			first[path] = list[0].Type()
		}
	}
	resolved := 0
	for ; times > 0; times-- {
		for path, t := range first {
			for _, name := range names {
				if object, _, _ := types.LookupFieldOrMethod(t, true, w.checked[path], name); object != nil {
					resolved++
				}
			}
		}
	}
	fmt.Fprintf(out, "resolved %d\n", resolved)
}

func main() {
	if len(os.Args) < 2 {
		fmt.Fprintln(os.Stderr, "usage: goselect select|selectable|first|first10 FILE..")
		os.Exit(2)
	}
	kind, files := os.Args[1], os.Args[2:]
	out := bufio.NewWriter(os.Stdout)
	failed := false
	for _, file := range files {
		text, err := os.ReadFile(file)
		if err != nil {
			fmt.Fprintln(os.Stderr, err)
			os.Exit(2)
		}
		w := &workspace{token.NewFileSet(), map[string][]*ast.File{}, map[string]string{}, map[string]*types.Package{}, false}
		w.read(string(text))
		switch kind {
		case "first":
			w.count(out, 1)
		case "first10":
			w.count(out, 10)
		default:
			w.ask(out, kind)
		}
		failed = failed || w.failed
	}
	out.Flush()
	if failed {
		os.Exit(1)
	}
}
