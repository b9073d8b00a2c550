package main

import (
	"go/ast"
	"go/token"
	"sort"
)

// A usage is an identifier that is used, by docs/RULES.md, "Occurrences".
type usage struct {
	ident   *ast.Ident
	role    string            // value, callee or type, and before a dot qualifier, or typeQualifier where a type is wanted
	left    ast.Expr          // what stands before its dot
	literal *ast.CompositeLit // whose key it is
	home    *ast.FuncDecl     // in whose body it stands
}

// A user gathers the usages of a file.
type user struct {
	home  *ast.FuncDecl
	found []*usage
}

// usagesOf gives the usages of a file in order.
func usagesOf(tree *ast.File) []*usage {
	u := &user{}
	for _, decl := range tree.Decls {
		switch d := decl.(type) {
		case *ast.GenDecl:
			u.general(d)
		case *ast.FuncDecl:
			u.fields(d.Recv)
			u.expr(d.Type, "type")
			u.home = d
			u.stmt(d.Body)
			u.home = nil
		}
	}
	sort.Slice(u.found, func(a, b int) bool { return u.found[a].ident.Pos() < u.found[b].ident.Pos() })
	return u.found
}

func (u *user) add(ident *ast.Ident, role string) *usage {
	one := &usage{ident: ident, role: role, home: u.home}
	u.found = append(u.found, one)
	return one
}

func (u *user) exprs(all []ast.Expr) {
	for _, e := range all {
		u.expr(e, "value")
	}
}

func (u *user) fields(list *ast.FieldList) {
	if list == nil {
		return
	}
	for _, field := range list.List {
		u.expr(field.Type, "type")
	}
}

// expr gathers from an expression that stands for an operand, is called, or is a type.
func (u *user) expr(e ast.Expr, role string) {
	switch e := e.(type) {
	case *ast.Ident:
		u.add(e, role)
	case *ast.ParenExpr:
		u.expr(e.X, role)
	case *ast.StarExpr:
		if role == "callee" {
			role = "type"
		}
		u.expr(e.X, role)
	case *ast.SelectorExpr:
		u.selector(e, role)
	case *ast.UnaryExpr:
		u.expr(e.X, "value")
	case *ast.BinaryExpr:
		u.expr(e.X, "value")
		u.expr(e.Y, "value")
	case *ast.CallExpr:
		u.expr(e.Fun, "callee")
		u.exprs(e.Args)
	case *ast.CompositeLit:
		u.composite(e)
	case *ast.StructType:
		u.fields(e.Fields)
	case *ast.InterfaceType:
		u.fields(e.Methods)
	case *ast.FuncType:
		u.fields(e.Params)
		u.fields(e.Results)
	}
}

func (u *user) selector(e *ast.SelectorExpr, role string) {
	if x, ok := e.X.(*ast.Ident); ok && role == "type" {
		u.add(x, "typeQualifier")
	} else if ok {
		u.add(x, "qualifier")
	} else {
		u.expr(e.X, "value")
	}
	u.add(e.Sel, role).left = e.X
}

func (u *user) composite(e *ast.CompositeLit) {
	u.expr(e.Type, "type")
	for _, element := range e.Elts {
		if pair, ok := element.(*ast.KeyValueExpr); ok {
			if key, ok := pair.Key.(*ast.Ident); ok {
				u.add(key, "key").literal = e
			}
			element = pair.Value
		}
		u.expr(element, "value")
	}
}

func (u *user) general(decl *ast.GenDecl) {
	for _, spec := range decl.Specs {
		switch s := spec.(type) {
		case *ast.ValueSpec:
			u.expr(s.Type, "type")
			u.exprs(s.Values)
		case *ast.TypeSpec:
			u.expr(s.Type, "type")
		}
	}
}

// isBlank tells whether an expression is the blank identifier, in parentheses or not.
func isBlank(e ast.Expr) bool {
	for {
		paren, ok := e.(*ast.ParenExpr)
		if !ok {
			break
		}
		e = paren.X
	}
	ident, ok := e.(*ast.Ident)
	return ok && ident.Name == "_"
}

// assign gathers from an assignment: names left of `:=` are declared or assigned, a blank left side of `=` uses nothing.
func (u *user) assign(s *ast.AssignStmt) {
	for _, e := range s.Lhs {
		if s.Tok != token.DEFINE && !(s.Tok == token.ASSIGN && isBlank(e)) {
			u.expr(e, "value")
		}
	}
	u.exprs(s.Rhs)
}

func (u *user) stmt(stmt ast.Stmt) {
	switch s := stmt.(type) {
	case *ast.DeclStmt:
		u.general(s.Decl.(*ast.GenDecl))
	case *ast.AssignStmt:
		u.assign(s)
	case *ast.IncDecStmt:
		u.expr(s.X, "value")
	case *ast.ExprStmt:
		u.expr(s.X, "value")
	case *ast.ReturnStmt:
		u.exprs(s.Results)
	case *ast.BlockStmt:
		for _, one := range s.List {
			u.stmt(one)
		}
	case *ast.IfStmt:
		u.header(s.Init, s.Cond, nil)
		u.stmt(s.Body)
		u.stmt(s.Else)
	case *ast.ForStmt:
		u.header(s.Init, s.Cond, s.Post)
		u.stmt(s.Body)
	}
}

func (u *user) header(init ast.Stmt, cond ast.Expr, post ast.Stmt) {
	u.stmt(init)
	u.expr(cond, "value")
	u.stmt(post)
}

// declaredIn gives the identifiers of a file that are not used: its package's name, what it declares, and blank targets.
func declaredIn(tree *ast.File, used []*usage) []*ast.Ident {
	isUsed := map[*ast.Ident]bool{}
	for _, one := range used {
		isUsed[one.ident] = true
	}
	var found []*ast.Ident
	ast.Inspect(tree, func(n ast.Node) bool {
		if ident, ok := n.(*ast.Ident); ok && !isUsed[ident] && ident.Name != "." {
			found = append(found, ident)
		}
		return true
	})
	return found
}
