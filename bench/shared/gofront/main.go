// Gofront reads one Go file on standard input and tells by go/types what each identifier that is used
// denotes: the peer of `govisd resolve`, in its format as far as go/types answers. With the argument `parse` it
// only parses the file, by go/parser: the peer of `test_cases parse`. With `sources FILE` it parses all files of an
// archive, holds their trees, and counts them: the peer of `test_cases sources`. With `check FILE` it parses and checks
// the packages of an archive, and counts what it finds: the peer of `test_cases counts` (checked.go). With `errors FILE` it
// tells each error of an archive with its place, a line each: the peer of `govisd check` (checked.go).
//
// Each line is OFFSET ROLE TEXT ANSWER. ROLE is type or value. ANSWER is universe.NAME,
// local/in.go:OFFSET, or ? where go/types finds no declaration. Errors go to standard error, but that a
// variable is not used is none. The status is 0 without an error, else 1.
package main

import (
	"bufio"
	"bytes"
	"fmt"
	"go/ast"
	"go/parser"
	"go/token"
	"go/types"
	"io"
	"os"
	"path"
	"runtime"
	"sort"
	"strconv"
	"strings"
)

// A use is an identifier that is used, and how.
type use struct {
	ident *ast.Ident
	role  string
}

// A finder gathers the uses of a file.
type finder struct {
	uses []use
}

func (f *finder) add(ident *ast.Ident, role string) {
	f.uses = append(f.uses, use{ident, role})
}

// typeName gathers the name of a written type.
func (f *finder) typeName(expr ast.Expr) {
	if ident, ok := expr.(*ast.Ident); ok {
		f.add(ident, "type")
	}
}

// value gathers the operands of an expression that are names.
func (f *finder) value(expr ast.Expr) {
	switch e := expr.(type) {
	case *ast.Ident:
		f.add(e, "value")
	case *ast.ParenExpr:
		f.value(e.X)
	case *ast.BinaryExpr:
		f.value(e.X)
		f.value(e.Y)
	}
}

func (f *finder) values(exprs []ast.Expr) {
	for _, e := range exprs {
		f.value(e)
	}
}

// isBlank tells whether a left side of `=` is the blank identifier, in parentheses or not.
func isBlank(expr ast.Expr) bool {
	for {
		paren, ok := expr.(*ast.ParenExpr)
		if !ok {
			break
		}
		expr = paren.X
	}
	ident, ok := expr.(*ast.Ident)
	return ok && ident.Name == "_"
}

// target gathers what a left side of `=` uses; the blank identifier, in parentheses too, uses nothing.
func (f *finder) target(expr ast.Expr) {
	if !isBlank(expr) {
		f.value(expr)
	}
}

func (f *finder) general(decl *ast.GenDecl) {
	for _, spec := range decl.Specs {
		if v, ok := spec.(*ast.ValueSpec); ok {
			f.typeName(v.Type)
			f.values(v.Values)
		}
	}
}

func (f *finder) stmt(stmt ast.Stmt) {
	switch s := stmt.(type) {
	case *ast.DeclStmt:
		if d, ok := s.Decl.(*ast.GenDecl); ok {
			f.general(d)
		}
	case *ast.AssignStmt:
		// the names before `:=` are declared or assigned, and are not listed
		if s.Tok != token.DEFINE {
			for _, e := range s.Lhs {
				f.target(e)
			}
		}
		f.values(s.Rhs)
	case *ast.ReturnStmt:
		f.values(s.Results)
	case *ast.BlockStmt:
		f.block(s)
	}
}

func (f *finder) block(block *ast.BlockStmt) {
	for _, s := range block.List {
		f.stmt(s)
	}
}

func (f *finder) file(file *ast.File) {
	for _, decl := range file.Decls {
		switch d := decl.(type) {
		case *ast.GenDecl:
			f.general(d)
		case *ast.FuncDecl:
			if d.Type.Results != nil {
				for _, field := range d.Type.Results.List {
					f.typeName(field.Type)
				}
			}
			if d.Body != nil {
				f.block(d.Body)
			}
		}
	}
}

// answer tells the declaration that an object is, by the places of the one file.
func answer(places *token.File, object types.Object) string {
	switch {
	case object == nil:
		return "?"
	case object.Parent() == types.Universe:
		return "universe." + object.Name()
	case object.Pos().IsValid():
		return "local/in.go:" + strconv.Itoa(places.Offset(object.Pos()))
	default:
		return "?"
	}
}

// check checks the types of a file, and tells what each identifier denotes and whether there was an error.
func check(files *token.FileSet, file *ast.File) (map[*ast.Ident]types.Object, bool) {
	clean := true
	config := types.Config{Error: func(err error) {
		if e, ok := err.(types.Error); ok && e.Soft {
			return // a variable that is not used
		}
		clean = false
		fmt.Fprintln(os.Stderr, err)
	}}
	info := types.Info{Uses: make(map[*ast.Ident]types.Object)}
	config.Check("local", files, []*ast.File{file}, &info)
	return info.Uses, clean
}

// parse reads the file and parses it.
func parse(files *token.FileSet) (*ast.File, error) {
	text, err := io.ReadAll(bufio.NewReaderSize(os.Stdin, 1<<16))
	if err != nil {
		return nil, err
	}
	return parser.ParseFile(files, "in.go", text, parser.SkipObjectResolution)
}

// A member is a file of an archive.
type member struct {
	place string
	text  []byte
}

// members cuts an archive at its lines `-- PLACE --`.
func members(archive []byte) []member {
	var found []member
	start := 0
	for at := 0; at < len(archive); {
		end := len(archive)
		if n := bytes.IndexByte(archive[at:], '\n'); n >= 0 {
			end = at + n + 1
		}
		line := strings.TrimSpace(string(archive[at:end]))
		if strings.HasPrefix(line, "-- ") && strings.HasSuffix(line, " --") {
			if len(found) > 0 {
				found[len(found)-1].text = archive[start:at]
			}
			found = append(found, member{place: strings.TrimSpace(line[2 : len(line)-2])})
			start = end
		}
		at = end
	}
	if len(found) > 0 {
		found[len(found)-1].text = archive[start:]
	}
	return found
}

// sources parses the files of an archive, holds their trees, and tells how many packages, files and trees there are.
func sources(name string) error {
	archive, err := os.ReadFile(name)
	if err != nil {
		return err
	}
	files := token.NewFileSet()
	packages := make(map[string]bool)
	var trees []*ast.File
	for _, m := range members(archive) {
		tree, err := parser.ParseFile(files, m.place, m.text, parser.SkipObjectResolution)
		if err != nil {
			return err
		}
		packages[path.Dir(m.place)] = true
		trees = append(trees, tree)
	}
	fmt.Printf("packages %d files %d trees %d\n", len(packages), len(trees), len(trees))
	runtime.KeepAlive(archive)
	runtime.KeepAlive(trees)
	return nil
}

func run() int {
	modes := map[string]func(string) error{"sources": sources, "check": checkAll, "compile": compileAll, "errors": errorsOf}
	if len(os.Args) == 3 && modes[os.Args[1]] != nil {
		if err := modes[os.Args[1]](os.Args[2]); err != nil {
			fmt.Fprintln(os.Stderr, err)
			return 1
		}
		return 0
	}
	files := token.NewFileSet()
	file, err := parse(files)
	if err != nil {
		fmt.Fprintln(os.Stderr, err)
		return 1
	}
	if len(os.Args) == 2 && os.Args[1] == "parse" {
		fmt.Println("tree")
		return 0
	}
	denoted, clean := check(files, file)
	var found finder
	found.file(file)
	sort.SliceStable(found.uses, func(i, j int) bool {
		return found.uses[i].ident.Pos() < found.uses[j].ident.Pos()
	})
	places := files.File(file.Pos())
	out := bufio.NewWriterSize(os.Stdout, 1<<16)
	for _, u := range found.uses {
		out.WriteString(strconv.Itoa(places.Offset(u.ident.Pos())))
		out.WriteString(" " + u.role + " " + u.ident.Name + " ")
		out.WriteString(answer(places, denoted[u.ident]) + "\n")
	}
	if err := out.Flush(); err != nil {
		fmt.Fprintln(os.Stderr, err)
		return 1
	}
	if !clean {
		return 1
	}
	return 0
}

func main() {
	os.Exit(run())
}
