package main

import (
	"fmt"
	"go/ast"
	"go/build"
	"go/parser"
	"go/token"
	"io/fs"
	"os"
	"path/filepath"
	"strings"
)

// What `govisd check` takes of folders and their files (docs/RULES.md, 12, 34 and 39).
const (
	most         = 1_048_576 // bytes of a text
	longestName  = 64        // bytes of a file's name
	mostFiles    = 256       // of a package
	longestPath  = 255       // bytes of a package's path
	mostElements = 16        // of a package's path
)

const alphanumeric = "ABCDEFGHIJKLMNOPQRSTUVWXYZabcdefghijklmnopqrstuvwxyz0123456789"

// isOf tells whether all characters of a text are some of these.
func isOf(text, these string) bool {
	return strings.IndexFunc(text, func(c rune) bool { return !strings.ContainsRune(these, c) }) < 0
}

// isFileName tells whether a source file may have a name. Those that end in `_test.go` or begin with `_` or `.` are none of a package for Go either.
func isFileName(name string) bool {
	return len(name) <= longestName && isOf(name, alphanumeric+"_-.")
}

// isPath tells whether a text is an import path.
func isPath(path string) bool {
	elements := strings.Split(path, "/")
	for _, element := range elements {
		if element == "" || !isOf(element, alphanumeric+"-._~") || strings.Trim(element, ".") != element {
			return false
		}
	}
	return len(path) <= longestPath && len(elements) <= mostElements
}

// refusedFile tells why a file is left out whole, if it is. Its imports get the module in front of their paths.
func (r *reducer) refusedFile(name string, text []byte, failed error) string {
	if failed != nil {
		return failed.Error()
	}
	if !isFileName(name) {
		return "a name that no source file may have (E2)"
	}
	tree, err := parser.ParseFile(token.NewFileSet(), name, text, parser.SkipObjectResolution)
	if err != nil {
		return "go/parser refuses it: " + err.Error()
	}
	if len(text)+len(tree.Imports)*len(r.module+"/") > most {
		return "more than 1,048,576 bytes (E3)"
	}
	return ""
}

// leaveOutFolder leaves out a folder with all that lies in it, and names it where there are Go files in it.
func (r *reducer) leaveOutFolder(below, folder, why string) error {
	files := 0
	filepath.WalkDir(folder, func(file string, entry fs.DirEntry, failed error) error {
		if failed == nil && !entry.IsDir() && strings.HasSuffix(file, ".go") && !strings.HasSuffix(file, "_test.go") {
			files++
		}
		return nil
	})
	if files > 0 {
		r.gone = append(r.gone, fmt.Sprintf("folder left out: %s with %d files: %s", below, files, why))
	}
	return fs.SkipDir
}

// files gives the files of a package that are built on Linux for amd64 without cgo, and names those of them that are left out.
func (r *reducer) files(from string) []*source {
	context := build.Default
	context.GOOS, context.GOARCH, context.CgoEnabled = "linux", "amd64", false
	found, err := context.ImportDir(r.folders[from], 0)
	if _, isEmpty := err.(*build.NoGoError); isEmpty {
		return nil
	} else if err != nil {
		r.gone = append(r.gone, fmt.Sprintf("folder left out: %s: go/build refuses it: %v", from, err))
		return nil
	}
	var files []*source
	for _, name := range found.GoFiles {
		text, err := os.ReadFile(filepath.Join(r.folders[from], name))
		why := r.refusedFile(name, text, err)
		if why == "" && len(files) == mostFiles {
			why = "behind the first 256 files of the package (E4)"
		}
		if why != "" {
			r.gone = append(r.gone, fmt.Sprintf("file left out: %s/%s: %s", from, name, why))
			continue
		}
		files = append(files, &source{name: name, text: text})
	}
	return files
}

// names gives the names of a declaration outside functions, and those of its specifications: a method stands behind its type.
func names(decl ast.Node) string {
	switch decl := decl.(type) {
	case *ast.FuncDecl:
		if decl.Recv != nil && len(decl.Recv.List) == 1 {
			return typeName(decl.Recv.List[0].Type) + "." + decl.Name.Name
		}
		return decl.Name.Name
	case *ast.ValueSpec:
		return commas(decl.Names)
	case *ast.TypeSpec:
		return decl.Name.Name
	case *ast.ImportSpec:
		return decl.Path.Value
	case *ast.Field:
		if len(decl.Names) > 0 {
			return commas(decl.Names)
		}
		return typeName(decl.Type)
	}
	return "the file"
}

func commas(idents []*ast.Ident) string {
	var texts []string
	for _, ident := range idents {
		texts = append(texts, ident.Name)
	}
	return strings.Join(texts, ",")
}

// typeName is the last identifier of a type's name.
func typeName(expr ast.Expr) string {
	switch expr := expr.(type) {
	case *ast.StarExpr:
		return typeName(expr.X)
	case *ast.ParenExpr:
		return typeName(expr.X)
	case *ast.SelectorExpr:
		return expr.Sel.Name
	case *ast.Ident:
		return expr.Name
	}
	return "_"
}

// namesAt gives the names of the declaration of a file that holds an offset.
func namesAt(file string, offset int) string {
	fset := token.NewFileSet()
	tree, err := parser.ParseFile(fset, file, nil, parser.SkipObjectResolution)
	if err != nil {
		return "the file"
	}
	var found ast.Node
	ast.Inspect(tree, func(n ast.Node) bool {
		if n == nil || offset < fset.Position(n.Pos()).Offset || fset.Position(n.End()).Offset <= offset {
			return false
		}
		switch n.(type) {
		case *ast.FuncDecl, ast.Spec:
			found = n
			return false
		}
		return true
	})
	return names(found)
}
