package main

import (
	"go/ast"
	"go/types"
	"sort"
	"strings"
)

// What go/types goes on with in a package, and govisd does not, or the other way round: names that another package does not export, method expressions,
// members that a type declares twice, types that reach themselves, and what is declared by these.
type apart struct {
	*judgement
	declared map[types.Object]bool
	repeated map[string]bool
	isCyclic bool
	isEarly  bool // whether that of Go 1.19 refuses an alias since it comes to it before its target (https://go.dev/issue/50729)
}

// Repeating are the codes of errors about members that a type declares twice.
var repeating = []string{"DuplicateFieldAndMethod", "DuplicateMethod", "DuplicateDecl"}

// apartIn gathers that of a package and of those that it imports.
func (j *judgement) apartIn(from string) *apart {
	a := &apart{judgement: j, declared: map[types.Object]bool{}, repeated: map[string]bool{}}
	a.gather(from, map[string]bool{})
	for _, tree := range j.trees[from] {
		ast.Inspect(tree, func(n ast.Node) bool {
			switch n := n.(type) {
			case *ast.AssignStmt:
				for _, left := range n.Lhs {
					a.note(left, n.Rhs)
				}
			case *ast.ValueSpec:
				for _, name := range n.Names {
					a.note(name, n.Values)
				}
			}
			return true
		})
	}
	return a
}

// gather notes the members that are declared twice, and whether a type reaches itself.
func (a *apart) gather(from string, seen map[string]bool) {
	if seen[from] {
		return
	}
	seen[from] = true
	for _, odd := range a.errors[from] {
		if has(repeating, odd.code) {
			a.repeated[a.nameAt(odd.at)] = true
		}
		isEarly := strings.Contains(odd.text, "invalid use of type alias")
		a.isEarly = a.isEarly || isEarly
		a.isCyclic = a.isCyclic || odd.code == "InvalidDeclCycle" && !isEarly
	}
	for _, one := range a.edges(from) {
		a.gather(one.to, seen)
	}
}

// nameAt gives the identifier at a place.
func (a *apart) nameAt(at place) string {
	text := a.texts[at.file]
	end := at.offset
	for end < len(text) && (text[end] == '_' || text[end] >= '0' && text[end] <= '9' || text[end]|32 >= 'a' && text[end]|32 <= 'z' || text[end] >= 128) {
		end++
	}
	return text[at.offset:end]
}

// names gives the names of members that are declared twice.
func (a *apart) names() []string {
	found := []string{}
	for name := range a.repeated {
		found = append(found, name)
	}
	sort.Strings(found)
	return found
}

// note notes a name that is declared by such an expression.
func (a *apart) note(name ast.Expr, values []ast.Expr) {
	ident, ok := name.(*ast.Ident)
	for _, value := range values {
		if ok && a.info.Defs[ident] != nil && a.has(value) {
			a.declared[a.info.Defs[ident]] = true
		}
	}
}

// has tells whether such a thing stands in an expression.
func (a *apart) has(one ast.Node) bool {
	found := false
	ast.Inspect(one, func(n ast.Node) bool {
		switch n := n.(type) {
		case *ast.Ident:
			found = found || a.declared[a.info.Uses[n]]
		case *ast.SelectorExpr:
			found = found || a.isApart(n)
		}
		return !found
	})
	return found
}

// isApart tells whether a selector is a method expression, or of a name that is not exported by its package or is declared twice.
func (a *apart) isApart(one *ast.SelectorExpr) bool {
	if a.info.Types[one.X].IsType() || a.repeated[one.Sel.Name] {
		return true
	}
	x, ok := one.X.(*ast.Ident)
	if !ok || ast.IsExported(one.Sel.Name) {
		return false
	}
	_, isPackage := a.info.Uses[x].(*types.PkgName)
	return isPackage
}
