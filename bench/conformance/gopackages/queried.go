package main

import (
	"bufio"
	"encoding/json"
	"fmt"
	"go/ast"
	"go/token"
	"go/types"
	"os"
	"path"
	"sort"
	"strings"
)

// Usable are the predeclared names of the profile, and predeclaredNames all of Go 1.22.
var (
	usable           = strings.Fields("any bool error int string true false nil len panic print println")
	predeclaredNames = append(strings.Fields("byte comparable complex64 complex128 float32 float64 int8 int16 int32 int64 rune uint uint8 uint16 uint32 uint64 uintptr"+
		" iota append cap clear close complex copy delete imag make max min new real recover"), usable...)
)

// What is told of a file of a package: of each identifier that is used, where it stands and what names may stand there.
type toldFile struct {
	Archive   string         `json:"archive"`
	Package   string         `json:"package"`
	File      string         `json:"file"`
	Assembled bool           `json:"assembled"`
	Accepted  bool           `json:"accepted"` // by go/types, and so is all that it imports
	Clashes   []string       `json:"clashes"`  // the names that both an import and the package bind
	Repeated  []string       `json:"repeated"` // the names of members that a type declares twice, here or in what is imported
	Cyclic    bool           `json:"cyclic"`   // whether a type reaches itself there
	Early     bool           `json:"early"`    // whether go/types of Go 1.19 comes to an alias too early there
	Declared  [][2]int       `json:"declared"` // the identifiers that are not used
	Uses      []*toldUse     `json:"uses"`
	Counts    map[string]int `json:"counts"` // what became of the names that were put in place
	Odd       []string       `json:"odd"`    // where go/types says of one something else than its scopes
}

// What is told of an identifier.
type toldUse struct {
	At      int      `json:"at"`
	End     int      `json:"end"`
	Name    string   `json:"name"`
	Context string   `json:"context"` // name, package, refused, value or key
	Role    string   `json:"role"`
	Decl    string   `json:"decl"` // what it denotes
	Rule    string   `json:"rule"` // or why it may not stand there
	Names   []string `json:"names"`
	Probed  bool     `json:"probed"` // whether each name was put in its place
	Typed   bool     `json:"typed"`  // whether go/types has a type of what stands before its dot, or of its literal
	Late    bool     `json:"late"`   // whether that is a type for which go/types of Go 1.19 has no fields
	Apart   bool     `json:"apart"`  // whether it rests on what go/types and govisd take for different things
}

// A questioner tells of the files of a package.
type questioner struct {
	*prober
	pkg     *types.Package
	names   []string
	parents map[ast.Node]ast.Node
	late    map[*ast.SelectorExpr]bool
	apart   *apart
	file    *toldFile
}

// candidates gives the names that are put in place: those that the workspace writes, the predeclared ones with the method of one, and one that nothing has.
func (j *judgement) candidates() []string {
	all := map[string]bool{"_": true, "fresh9": true, "Error": true}
	for _, name := range predeclaredNames {
		all[name] = true
	}
	for _, tree := range j.files {
		ast.Inspect(tree, func(n ast.Node) bool {
			if ident, ok := n.(*ast.Ident); ok && ident.Name != "." {
				all[ident.Name] = true
			}
			return true
		})
	}
	var found []string
	for name := range all {
		found = append(found, name)
	}
	sort.Strings(found)
	return found
}

// parentsOf gives the node round each node of a file.
func parentsOf(tree *ast.File) map[ast.Node]ast.Node {
	found, open := map[ast.Node]ast.Node{}, []ast.Node{nil}
	ast.Inspect(tree, func(n ast.Node) bool {
		if n == nil {
			open = open[:len(open)-1]
			return true
		}
		found[n] = open[len(open)-1]
		open = append(open, n)
		return true
	})
	return found
}

// extent gives where errors stand that are about an identifier.
func (q *questioner) extent(one *usage) extent {
	var node ast.Node = one.ident
	for {
		where := extent{from: node.Pos(), to: one.ident.End(), left: one.left}
		switch outer := q.parents[node].(type) {
		case *ast.ParenExpr, *ast.StarExpr:
		case *ast.SelectorExpr:
			if outer.Sel != node {
				where.other = "NotAnExpr"
				return where
			}
		case *ast.CallExpr:
			if outer.Fun == node {
				where.behind, where.called = outer.Rparen, outer.Fun
			}
			return where
		default:
			return where
		}
		node = q.parents[node]
	}
}

// lookUp asks the scopes of go/types for a name at a place. Where an import and the package bind it, the package's holds (B2).
func (q *questioner) lookUp(scope *types.Scope, at token.Pos, name string) (types.Object, bool) {
	where, object := scope.LookupParent(name, at)
	if object == nil {
		return nil, false
	}
	if own := q.pkg.Scope().Lookup(name); own != nil && where.Parent() == q.pkg.Scope() {
		return own, true
	}
	return object, false
}

// isRefusedImport tells whether a name stands for a package whose import is refused.
func (q *questioner) isRefusedImport(object types.Object) bool {
	imported, ok := object.(*types.PkgName)
	return ok && q.j.refused[q.from][imported.Imported().Path()] != ""
}

// ruleOfName is the rule that refuses a name that stands alone, by docs/RULES.md, "Names, selectors and calls in expressions", or nothing.
func (q *questioner) ruleOfName(role, name string, object types.Object) string {
	isBefore := role == "qualifier" || role == "typeQualifier"
	_, isPackage := object.(*types.PkgName)
	switch {
	case name == "_":
		return "N8"
	case object == nil:
		return "N1"
	case q.isRefusedImport(object):
		return "N9"
	case object.Parent() == types.Universe && !has(usable, name):
		return "N7"
	case isPackage && isBefore:
		return ""
	case isPackage:
		return "N4"
	}
	return ruleOfKind(role, object)
}

// ruleOfKind is the rule that refuses what is no package where it stands.
func ruleOfKind(role string, object types.Object) string {
	_, isType := object.(*types.TypeName)
	if role == "typeQualifier" && !isType {
		return "N6"
	}
	switch object.(type) {
	case *types.TypeName:
		if role != "type" && role != "callee" {
			return "N5"
		}
	case *types.Func, *types.Builtin:
		if role == "type" {
			return "N6"
		}
		if role != "callee" {
			return "X1"
		}
	default:
		if role == "type" {
			return "N6"
		}
		if role == "callee" {
			return "C1"
		}
	}
	return ""
}

// ruleOfShown is the rule that refuses a name behind a package.
func ruleOfShown(role, name string, object types.Object) string {
	switch {
	case name == "_":
		return "S8"
	case object == nil:
		return "N3"
	case !ast.IsExported(name):
		return "N2"
	}
	return ruleOfKind(role, object)
}

// scopeOf gives the scope in which an identifier is looked up. Parameters of an interface's methods are seen in no type.
func (q *questioner) scopeOf(ident *ast.Ident) *types.Scope {
	at := ident.Pos()
	for node := q.parents[ident]; node != nil; node = q.parents[node] {
		if outer, ok := node.(*ast.InterfaceType); ok {
			at = outer.Pos()
		}
	}
	if scope := q.pkg.Scope().Innermost(at); scope != nil {
		return scope
	}
	return q.pkg.Scope()
}

// left says what stands before the dot of a name: a package, something that is refused, a type among it, or a value.
func (q *questioner) left(one *usage, scope *types.Scope) (string, *types.Package) {
	if q.j.info.Types[one.left].IsType() {
		return "refused", nil
	}
	x, ok := one.left.(*ast.Ident)
	if !ok {
		return "value", nil
	}
	role := "qualifier"
	if one.role == "type" {
		role = "typeQualifier"
	}
	object, _ := q.lookUp(scope, x.Pos(), x.Name)
	if q.ruleOfName(role, x.Name, object) != "" {
		return "refused", nil
	}
	if imported, ok := object.(*types.PkgName); ok {
		return "package", imported.Imported()
	}
	return "value", nil
}

// use tells of an identifier. Each name is put in its place where it is probed.
func (q *questioner) use(one *usage, isProbed bool) *toldUse {
	offset := func(at token.Pos) int { return q.j.place(at).offset }
	told := &toldUse{At: offset(one.ident.Pos()), End: offset(one.ident.End()), Name: one.ident.Name, Role: one.role, Probed: isProbed, Names: []string{}}
	scope := q.scopeOf(one.ident)
	var shown *types.Package
	told.Context = "name"
	if one.left != nil {
		told.Context, shown = q.left(one, scope)
	} else if one.literal != nil {
		told.Context = "key"
	}
	q.typed(told, one)
	for _, name := range q.names {
		object, isClash, rule := types.Object(nil), false, "S4"
		switch told.Context {
		case "name":
			object, isClash = q.lookUp(scope, one.ident.Pos(), name)
			rule = q.ruleOfName(one.role, name, object)
		case "package":
			object = shown.Scope().Lookup(name)
			rule = ruleOfShown(one.role, name, object)
		case "refused":
			if _, isName := one.left.(*ast.Ident); name == "_" && !isName {
				rule = "S8"
			}
		case "value":
			object, rule = q.behindValue(one, name)
		case "key":
			object, rule = q.keyOf(one, name)
		}
		q.name(told, one, name, object, rule, isClash)
	}
	return told
}

// name notes whether a name may stand in a place, by what go/types' scopes have, and puts it there.
func (q *questioner) name(told *toldUse, one *usage, name string, object types.Object, rule string, isClash bool) {
	q.note(told, one, name, object, rule)
	if isClash {
		q.file.Counts["names that an import and the package bind"]++
		return
	}
	if recorded := q.j.info.Uses[one.ident]; name == one.ident.Name && told.Context != "refused" {
		q.hold(recorded, told, one, object)
	}
	if told.Probed && told.Context != "refused" {
		q.probe(told, one, name, object, rule)
	}
}

// hold holds what go/types recorded of an identifier against its scopes.
func (q *questioner) hold(recorded types.Object, told *toldUse, one *usage, object types.Object) {
	switch {
	case recorded == nil && object == nil:
		q.file.Counts["identifiers: undeclared"]++
	case recorded == nil:
		q.file.Counts["identifiers: by the scopes alone"]++
	case object != nil && q.j.decl(recorded) == q.j.decl(object):
		q.file.Counts["identifiers: as go/types recorded"]++
	default:
		q.odd(told, one, one.ident.Name, "recorded")
	}
}

// odd notes that go/types says something else than its scopes.
func (q *questioner) odd(told *toldUse, one *usage, words ...string) {
	words = append([]string{told.Context, told.Role, q.j.place(one.ident.Pos()).String()}, words...)
	q.file.Odd = append(q.file.Odd, strings.Join(words, " "))
}

// leadsBack says whether an identifier stands behind a value of a type that go/types found to lead back to itself: it has no members then, but go/types may
// come to a selector of it before it finds that.
func (q *questioner) leadsBack(one *usage) bool {
	left := q.j.info.Types[one.left]
	return left.IsValue() && isValid(left.Type) && !isValid(left.Type.Underlying())
}

// extentOf gives where errors stand that are about an identifier and no other.
func (q *questioner) extentOf(told *toldUse, one *usage) extent {
	where := q.extent(one)
	if told.Context == "package" {
		where.other = "InvalidPkgUse"
	}
	return where
}

// probe puts a name in a place, and holds what go/types says against its scopes.
func (q *questioner) probe(told *toldUse, one *usage, name string, object types.Object, rule string) {
	found := q.put(one, name, q.extentOf(told, one))
	if !q.file.Accepted {
		found.errors++ // of the package, or of one that it imports
	}
	isSame := found.object == nil || object != nil && q.j.decl(found.object) == q.j.decl(object)
	what := ""
	if found.panics {
		what = "go/types panics"
	} else if isSame && rule == "" {
		what = found.whatTaken()
	} else if isSame {
		what = found.whatRefused(rule, one.role)
	}
	if what == "" && rule == "S1" && q.leadsBack(one) {
		what = "behind a type that leads back to itself, which go/types finds later"
	}
	if what == "" {
		q.odd(told, one, name, "by the scopes: "+rule, "by go/types: "+q.said(found))
	} else {
		q.file.Counts["put in place: "+what]++
	}
}

// said tells what go/types says of a name that was put in a place.
func (q *questioner) said(found probed) string {
	decl := "no declaration"
	if found.object != nil {
		decl = q.j.decl(found.object)
	}
	return fmt.Sprintf("%s %s, %d errors", decl, found.code, found.errors)
}

// whatTaken says what go/types does with a name that may stand in a place, or nothing where it says something else.
func (p probed) whatTaken() string {
	_, isFunc := p.object.(*types.Func)
	switch {
	case p.code == "MixedStructLit":
		return "taken, in an element that go/types refuses for its form, and looks no further"
	case p.code == "InvalidCall" && isFunc:
		return "taken by both, before a call of what is no function"
	case p.code != "":
		return ""
	case p.object != nil:
		return "taken by both"
	case p.errors > 0:
		return "taken, and not recorded by go/types, which another error keeps from it"
	}
	return ""
}

// whatRefused says what go/types does with a name that a rule refuses in a place.
func (p probed) whatRefused(rule, role string) string {
	isOwn := rule == "X1" || rule == "N7" || rule == "N5" && role == "qualifier"
	switch {
	case p.code != "":
		return "refused by both"
	case isOfOther(rule):
		return "refused by both, by go/types at another element"
	case isOwn && p.object != nil:
		return "taken by go/types, refused by " + rule
	case rule == "N8":
		return "a blank target"
	case rule == "N9":
		return "of an import that is refused"
	case p.errors > 0 || p.object != nil && p.object.Type() == types.Typ[types.Invalid]:
		return "refused, of which go/types says nothing, since another error keeps it from it"
	}
	return ""
}

// note notes whether a name may stand in a place, and of the name that stands there what it denotes.
func (q *questioner) note(told *toldUse, one *usage, name string, object types.Object, rule string) {
	if rule == "" {
		told.Names = append(told.Names, name)
	}
	if name == one.ident.Name {
		told.Rule = rule
		if rule == "" {
			told.Decl = q.j.decl(object)
		}
	}
}

// clashes gives the names that both an import of a file and the package bind.
func (q *questioner) clashes(tree *ast.File) []string {
	found := []string{}
	scope := q.pkg.Scope().Innermost(tree.Name.Pos())
	for _, name := range q.names {
		if scope != nil && scope != q.pkg.Scope() && scope.Lookup(name) != nil && q.pkg.Scope().Lookup(name) != nil {
			found = append(found, name)
		}
	}
	return found
}

// tellFile tells of a file of a package that assembles; each so many of its identifiers are probed, and each so many of these outside functions.
func (q *questioner) tellFile(tree *ast.File, told *toldFile, every, outside int) {
	q.file, q.parents = told, parentsOf(tree)
	used := usagesOf(tree)
	told.Clashes = q.clashes(tree)
	for _, ident := range declaredIn(tree, used) {
		told.Declared = append(told.Declared, [2]int{q.j.place(ident.Pos()).offset, q.j.place(ident.End()).offset})
	}
	for at, one := range used {
		isProbed := at%every == 0 && (one.home != nil || at%outside == 0)
		told.Uses = append(told.Uses, q.use(one, isProbed))
	}
}

// query tells of an archive, file by file.
func query(file string, every, outside int, out *json.Encoder) error {
	text, err := os.ReadFile(file)
	if err != nil {
		return err
	}
	j := judged(string(text))
	if j == nil {
		return out.Encode(&toldFile{Archive: file})
	}
	names := j.candidates()
	var places []string
	for where := range j.texts {
		places = append(places, where)
	}
	sort.Strings(places)
	for _, where := range places {
		from := path.Dir(where)
		told := &toldFile{Archive: file, Package: from, File: path.Base(where), Declared: [][2]int{}, Uses: []*toldUse{}, Counts: map[string]int{}, Odd: []string{}}
		told.Accepted = j.isAccepted(from)
		if pkg := j.checked[from]; pkg != nil && !j.broken[from] {
			told.Assembled = true
			q := &questioner{prober: &prober{j: j, from: from}, pkg: pkg, names: names, late: j.lateSelectors()}
			q.apart = j.apartIn(from)
			told.Repeated, told.Cyclic, told.Early = q.apart.names(), q.apart.isCyclic, q.apart.isEarly
			q.tellFile(j.files[where], told, every, outside)
		}
		if err := out.Encode(told); err != nil {
			return err
		}
	}
	return nil
}

// queryAll tells of archives.
func queryAll(files []string, every, outside int) {
	out := bufio.NewWriterSize(os.Stdout, 1<<20)
	defer out.Flush()
	for _, file := range files {
		if err := query(file, every, outside, json.NewEncoder(out)); err != nil {
			fail(err)
		}
	}
}
