package main

import (
	"fmt"
	"go/ast"
	"go/parser"
	"go/token"
	"go/types"
	"io/fs"
	"os"
	"path"
	"path/filepath"
	"strings"
)

// A checker checks the packages of a workspace, each once.
type checker struct {
	files   *token.FileSet
	trees   map[string][]*ast.File
	order   []string // their paths
	checked map[string]*types.Package
	info    types.Info
	errors  int
	said    []types.Error // those that it counts
}

// Import checks a package before those that import it.
func (c *checker) Import(from string) (*types.Package, error) {
	if p, ok := c.checked[from]; ok {
		return p, nil
	}
	if c.trees[from] == nil {
		return nil, fmt.Errorf("no package %s", from)
	}
	config := types.Config{Importer: c, Sizes: types.SizesFor("gc", "amd64"), Error: func(err error) {
		if e, ok := err.(types.Error); !ok || !e.Soft {
			c.errors++
			if e, ok := err.(types.Error); ok {
				c.said = append(c.said, e)
			}
		}
	}}
	p, _ := config.Check(from, c.files, c.trees[from], &c.info)
	c.checked[from] = p
	return p, nil
}

// newChecker makes one that knows no packages yet.
func newChecker() *checker {
	return &checker{files: token.NewFileSet(), trees: map[string][]*ast.File{}, checked: map[string]*types.Package{}, info: types.Info{
		Defs: map[*ast.Ident]types.Object{}, Uses: map[*ast.Ident]types.Object{}, Selections: map[*ast.SelectorExpr]*types.Selection{}}}
}

// parse parses a file of a package.
func (c *checker) parse(place string, text []byte) error {
	tree, err := parser.ParseFile(c.files, place, text, parser.SkipObjectResolution)
	if err != nil {
		return err
	}
	from := path.Dir(place)
	if c.trees[from] == nil {
		c.order = append(c.order, from)
	}
	c.trees[from] = append(c.trees[from], tree)
	return nil
}

// tell checks all packages, and tells how many there are, how many errors, and of how many identifiers and selectors it is known what they denote.
func (c *checker) tell() {
	for _, from := range c.order {
		c.Import(from)
	}
	fmt.Printf("packages %d errors %d identifiers %d selectors %d\n", len(c.order), c.errors, len(c.info.Uses), len(c.info.Selections))
}

// checkAll parses and checks the packages of an archive by go/types.
func checkAll(name string) error {
	archive, err := os.ReadFile(name)
	if err != nil {
		return err
	}
	c := newChecker()
	for _, m := range members(archive) {
		if err := c.parse(m.place, m.text); err != nil {
			return err
		}
	}
	c.tell()
	return nil
}

// compileAll parses and checks the packages below a folder by go/types: their paths are those of their folders from there.
func compileAll(folder string) error {
	c := newChecker()
	err := filepath.WalkDir(folder, func(file string, entry fs.DirEntry, err error) error {
		if err != nil || entry.IsDir() || !strings.HasSuffix(file, ".go") {
			return err
		}
		text, err := os.ReadFile(file)
		if err != nil {
			return err
		}
		return c.parse(strings.TrimPrefix(file, filepath.Clean(folder)+"/"), text)
	})
	if err == nil {
		c.tell()
	}
	return err
}

// errorsOf parses and checks the packages of an archive by go/types, and tells each error with its place, one a line; of a text without a tree that it has none.
func errorsOf(name string) error {
	archive, err := os.ReadFile(name)
	if err != nil {
		return err
	}
	c := newChecker()
	for _, m := range members(archive) {
		if err := c.parse(m.place, m.text); err != nil {
			fmt.Println(err)
			return nil
		}
	}
	for _, from := range c.order {
		c.Import(from)
	}
	for _, e := range c.said {
		fmt.Printf("%s: %s\n", c.files.Position(e.Pos), e.Msg)
	}
	return nil
}
