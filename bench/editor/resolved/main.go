// Resolved tells by go/types what each identifier of a module denotes, by numbers alone, so that the same program under other names gives the same lines:
// the peer of the renames of `govisd lsp` (renames.py). Each line of standard input names the folder of a module; what is told of it ends with a line of one dot.
//
// A line is FILE NUMBER DEF USE SELECTION: the identifier by its number in its file, whether it declares something, what it uses (a file and a number, a name of the
// universe or a package's path), and along which embedded fields. A line of an error has its place, without its words.
package main

import (
	"bufio"
	"errors"
	"fmt"
	"go/ast"
	"go/parser"
	"go/token"
	"go/types"
	"os"
	"path/filepath"
	"sort"
	"strings"
)

// A module is what is known of the packages of a folder.
type module struct {
	fset    *token.FileSet
	root    string
	path    string
	files   map[string][]*ast.File
	checked map[string]*types.Package
	names   map[token.Pos]string
	info    types.Info
	errors  []string
}

// Import gives the package of a path, checked.
func (m *module) Import(path string) (*types.Package, error) {
	if found, ok := m.checked[path]; ok {
		if found == nil {
			return nil, errors.New("a circle")
		}
		return found, nil
	}
	files, ok := m.files[path]
	if !ok {
		return nil, errors.New("no package")
	}
	m.checked[path] = nil
	config := types.Config{Importer: m, Error: func(err error) {
		if e, ok := err.(types.Error); ok {
			m.errors = append(m.errors, m.place(e.Pos))
		}
	}}
	found, _ := config.Check(path, m.fset, files, &m.info)
	m.checked[path] = found
	return found, nil
}

// place gives a place by the identifier that begins there, or else by its line.
func (m *module) place(pos token.Pos) string {
	if name, ok := m.names[pos]; ok {
		return name
	}
	at := m.fset.Position(pos)
	return fmt.Sprintf("%s line %d", m.short(at.Filename), at.Line)
}

func (m *module) short(file string) string {
	short, err := filepath.Rel(m.root, file)
	if err != nil {
		return file
	}
	return short
}

func (m *module) read() error {
	text, err := os.ReadFile(filepath.Join(m.root, "go.mod"))
	if err != nil {
		return err
	}
	m.path = strings.Fields(strings.TrimPrefix(string(text), "module "))[0]
	return filepath.Walk(m.root, func(file string, info os.FileInfo, err error) error {
		if err != nil || info.IsDir() || !strings.HasSuffix(file, ".go") {
			return err
		}
		tree, err := parser.ParseFile(m.fset, file, nil, parser.SkipObjectResolution)
		if err != nil {
			return err
		}
		path := m.path
		if folder := filepath.Dir(m.short(file)); folder != "." {
			path += "/" + filepath.ToSlash(folder)
		}
		m.files[path] = append(m.files[path], tree)
		return nil
	})
}

// number gives each identifier its file and its number there.
func (m *module) number() (idents []*ast.Ident) {
	var paths []string
	for path := range m.files {
		paths = append(paths, path)
	}
	sort.Strings(paths)
	for _, path := range paths {
		for _, tree := range m.files[path] {
			count := 0
			ast.Inspect(tree, func(node ast.Node) bool {
				if ident, ok := node.(*ast.Ident); ok {
					count++
					m.names[ident.Pos()] = fmt.Sprintf("%s %d", m.short(m.fset.File(ident.Pos()).Name()), count)
					idents = append(idents, ident)
				}
				return true
			})
		}
	}
	return idents
}

func (m *module) object(object types.Object) string {
	switch {
	case object == nil:
		return "-"
	case object.Pos().IsValid():
		return m.place(object.Pos())
	default:
		return "universe." + object.Name()
	}
}

func tell(out *bufio.Writer, root string) error {
	m := &module{fset: token.NewFileSet(), root: root, files: map[string][]*ast.File{}, checked: map[string]*types.Package{}, names: map[token.Pos]string{}}
	m.info = types.Info{Defs: map[*ast.Ident]types.Object{}, Uses: map[*ast.Ident]types.Object{}, Selections: map[*ast.SelectorExpr]*types.Selection{}}
	if err := m.read(); err != nil {
		return err
	}
	idents := m.number()
	for path := range m.files {
		m.Import(path)
	}
	for _, ident := range idents {
		_, declares := m.info.Defs[ident]
		fmt.Fprintln(out, m.names[ident.Pos()], declares, m.object(m.info.Uses[ident]))
	}
	var lines []string
	for selector, selection := range m.info.Selections {
		lines = append(lines, fmt.Sprintln("along", m.place(selector.Sel.Pos()), selection.Index(), selection.Indirect()))
	}
	for _, place := range m.errors {
		lines = append(lines, fmt.Sprintln("error", place))
	}
	sort.Strings(lines)
	fmt.Fprint(out, strings.Join(lines, ""))
	return nil
}

func main() {
	out := bufio.NewWriter(os.Stdout)
	defer out.Flush()
	in := bufio.NewScanner(os.Stdin)
	for in.Scan() {
		if err := tell(out, in.Text()); err != nil {
			fmt.Fprintln(out, "no program")
		}
		fmt.Fprintln(out, ".")
		out.Flush()
	}
}
