package main

import (
	"go/ast"
	"go/token"
	"go/types"
	"reflect"
)

// The most probes that are made over one package, each of which leaves a scope behind in it.
const mostProbes = 4000

// Outright are the errors of go/types that say that an identifier may not be what it is, where it stands.
var outright = map[string]bool{
	"InvalidBlank": true, "InvalidIota": true, "InvalidPkgUse": true, "NotAType": true, "NotAnExpr": true, "InvalidCall": true, "UncalledBuiltin": true,
	"UndeclaredName": true, "UndeclaredImportedName": true, "UnexportedName": true, "MissingFieldOrMethod": true, "AmbiguousSelector": true,
	"MissingLitField": true, "DuplicateLitField": true, "MixedStructLit": true, "InvalidMethodExpr": true,
}

// A prober puts names in the place of identifiers of a package and asks go/types what they denote there.
type prober struct {
	j     *judgement
	from  string
	bare  *types.Package // the package without what stands in functions
	spent int            // the probes that were made over it
}

// A probed is what go/types says of a name that was put in the place of an identifier.
type probed struct {
	object types.Object
	code   string // of an error that says that it may not stand there
	errors int    // all in what was checked, but for what is not used
	panics bool   // go/types panics, as that of Go 1.19 does on some packages with errors
}

// An extent is where errors stand that are about an identifier: between two places, and at the end of a call of it. Errors of one code that stand there are
// about something else: of a name before a dot, about the whole; of one behind a package, about what stands before the dot. So are errors inside what stands
// before its dot, and that something cannot be called which is not what is called by this identifier.
type extent struct {
	from, to, behind token.Pos
	other            string
	left, called     ast.Expr
}

// isOfOther tells whether an error of a code that stands in the extent is about something else.
func (where *extent) isOfOther(one *types.Error, code string) bool {
	if where.left != nil && where.left.Pos() < one.Pos && one.Pos < where.left.End() {
		return true
	}
	if code == "InvalidCall" {
		end := token.Pos(reflect.ValueOf(*one).FieldByName("go116end").Int())
		return where.called == nil || where.called.End() != end
	}
	return code == where.other
}

// config makes a configuration that counts errors, and notes the first of those that stand there and say that a name may not.
func (p *prober) config(found *probed, where extent) *types.Config {
	return &types.Config{Importer: importer{p.j, p.from}, Sizes: types.SizesFor("gc", "amd64"), Error: func(err error) {
		e, ok := err.(types.Error)
		if ok && !e.Soft {
			found.errors++
		}
		if !ok || found.code != "" || (e.Pos < where.from || where.to < e.Pos) && e.Pos != where.behind {
			return
		}
		if code := codeName(int(reflect.ValueOf(e).FieldByName("go116code").Int())); outright[code] && !where.isOfOther(&e, code) {
			found.code = code
		}
	}}
}

// put asks what an identifier denotes where it is spelled so, all else being as it is.
func (p *prober) put(one *usage, name string, where extent) (found probed) {
	before := one.ident.Name
	one.ident.Name = name
	defer func() {
		one.ident.Name = before
		if recover() != nil {
			found.panics, p.bare = true, nil
		}
	}()
	info := &types.Info{Uses: map[*ast.Ident]types.Object{}}
	config := p.config(&found, where)
	if one.home == nil {
		config.Check(p.from, p.j.fset, p.without(), info)
	} else {
		p.checkBody(config, one.home, info)
	}
	found.object = info.Uses[one.ident]
	return found
}

// checkBody checks a function by itself, as one more of its package that has no name.
func (p *prober) checkBody(config *types.Config, home *ast.FuncDecl, info *types.Info) {
	if p.bare == nil || p.spent >= mostProbes {
		silent := &types.Config{Importer: config.Importer, Sizes: config.Sizes, Error: func(error) {}}
		p.bare, _ = silent.Check(p.from, p.j.fset, p.without(), nil)
		p.spent = 0
	}
	p.spent++
	file := p.fileOf(home)
	alone := &ast.File{Package: file.Package, Name: file.Name}
	for _, decl := range file.Decls {
		if general, ok := decl.(*ast.GenDecl); ok && general.Tok == token.IMPORT {
			alone.Decls = append(alone.Decls, general)
		}
	}
	function := *home
	function.Name = &ast.Ident{NamePos: home.Name.NamePos, Name: "_"}
	alone.Decls = append(alone.Decls, &function)
	types.NewChecker(config, p.j.fset, p.bare, info).Files([]*ast.File{alone})
}

func (p *prober) fileOf(home *ast.FuncDecl) *ast.File {
	return p.j.files[p.j.fset.Position(home.Pos()).Filename]
}

// without gives the files of the package without the bodies of its functions.
func (p *prober) without() []*ast.File {
	var found []*ast.File
	for _, tree := range p.j.trees[p.from] {
		bare := *tree
		bare.Decls = nil
		for _, decl := range tree.Decls {
			if function, ok := decl.(*ast.FuncDecl); ok {
				empty := *function
				empty.Body = &ast.BlockStmt{Lbrace: function.Body.Lbrace, Rbrace: function.Body.Rbrace}
				decl = &empty
			}
			bare.Decls = append(bare.Decls, decl)
		}
		found = append(found, &bare)
	}
	return found
}
