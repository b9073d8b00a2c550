package main

import (
	"fmt"
	"go/ast"
	"go/constant"
	"go/parser"
	"go/token"
	"go/types"
	"math/rand"
	"os"
	"regexp"
	"sort"
	"strings"
)

// A pool is the names that a package may declare.
type pool struct {
	types, funcs, consts, vars []string
}

var (
	libNames = pool{
		types:  []string{"Base", "Inner", "Kit", "leaf", "Part", "hidden", "Shape", "Unit"},
		funcs:  []string{"Make", "Twice", "join", "Open", "Pick", "help"},
		consts: []string{"Max", "Word", "limit", "On", "Step", "Tail"},
		vars:   []string{"Now", "Root", "state", "Text", "Flag"},
	}
	ownNames = pool{
		types:  []string{"A", "B", "C", "D", "node", "pair", "tree", "Box", "kind", "Item", "étage", "Δ"},
		funcs:  []string{"f", "g", "h", "build", "Run", "walk", "Do", "check", "näher"},
		consts: []string{"c", "d", "size", "Top", "word", "yes", "zero", "größe"},
		vars:   []string{"v", "w", "count", "Head", "label", "cur", "flag"},
	}
	fieldNames  = []string{"a", "b", "x", "y", "N", "Left", "Right", "name", "size", "next", "ok", "Ä"}
	methodNames = []string{"M", "Get", "put", "Len", "area", "Sum", "run", "String"}
	localNames  = []string{"x", "y", "a", "b", "i", "j", "n", "s", "t", "ok", "e", "p", "q", "f", "v", "c", "A", "B", "lib", "kit", "node", "λ"}
	predeclared = []string{"len", "int", "true", "nil", "string", "print", "any", "error", "cap", "int8"}
)

// An entry is a declaration outside functions.
type entry struct {
	name string
	pkg  *made
	kind byte // t(ype), f(unction), c(onstant), v(ariable)
	typ  types.Type
	val  constant.Value
}

// A file of a package that is made.
type fileMade struct {
	name    string
	imports []string
	targets []*made          // what these import
	quals   map[*made]string // how packages are named: "." where their names stand alone
	pieces  []string
}

// A package that is made.
type made struct {
	r      *rand.Rand
	path   string
	clause string
	names  pool
	others []*made
	files  []*fileMade
	pkg    *types.Package
	top    map[string]*entry
	list   []*entry
	known  []types.Type
	member []string
	// members has what was looked up
	members map[behind]member
	types   []*typeMade
	funcs   []*funcMade
	wrong   *mistake
	placed  bool
}

// A type that is made.
type typeMade struct {
	name, form string // struct, basic, interface, pointer
	fields     map[string]bool
	methods    map[string]bool
	isFree     bool // whether it may have methods
}

// A function that is made.
type funcMade struct {
	file   *fileMade
	piece  int
	header string
	object *types.Func
}

func (m *made) one(words ...string) string { return words[m.r.Intn(len(words))] }

func (m *made) chance(percent int) bool { return m.r.Intn(100) < percent }

func (m *made) file() *fileMade { return m.files[m.r.Intn(len(m.files))] }

// some takes so many different words, in random order.
func (m *made) some(words []string, count int) []string {
	order := m.r.Perm(len(words))
	var found []string
	for _, at := range order[:min(count, len(words))] {
		found = append(found, words[at])
	}
	return found
}

func min(a, b int) int {
	if a < b {
		return a
	}
	return b
}

// foreign picks a type of another package, as it is written in a file.
func (m *made) foreign(f *fileMade, fits func(types.Type) bool) (string, types.Type, bool) {
	var found []string
	var kinds []types.Type
	for _, other := range m.others {
		qualifier, ok := f.quals[other]
		if !ok {
			continue
		}
		for _, e := range other.list {
			if e.kind == 't' && ast.IsExported(e.name) && fits(e.typ) {
				found = append(found, qualified(qualifier, e.name))
				kinds = append(kinds, e.typ)
			}
		}
	}
	if len(found) == 0 {
		return "", nil, false
	}
	at := m.r.Intn(len(found))
	return found[at], kinds[at], true
}

func qualified(qualifier, name string) string {
	if qualifier == "." {
		return name
	}
	return qualifier + "." + name
}

func always(types.Type) bool { return true }

// written writes a type: of the package's own types those below a limit may stand for values.
func (m *made) written(f *fileMade, depth, limit int) string {
	switch n := m.r.Intn(20); {
	case n < 8 || depth > 3:
		return m.one("int", "string", "bool", "int")
	case n < 11 && limit > 0:
		return m.types[m.r.Intn(limit)].name
	case n < 14 && len(m.types) > 0:
		return "*" + m.types[m.r.Intn(len(m.types))].name
	case n == 14:
		return m.one("any", "error", "any")
	case n == 15:
		return "*" + m.written(f, depth+1, len(m.types))
	case n == 16:
		return "(" + m.written(f, depth+1, limit) + ")"
	case n == 17:
		if name, _, ok := m.foreign(f, always); ok {
			return m.one("", "*") + name
		}
	case n == 18:
		return m.structure(f, depth+1, limit, map[string]bool{})
	case n == 19:
		return m.interfaceText(f, depth+1)
	}
	return m.one("int", "string", "bool")
}

// embedded picks an embedded field, with its name, which is that of an alias where one names its type.
func (m *made) embedded(f *fileMade, limit int) (string, string, bool) {
	switch n := m.r.Intn(10); {
	case n < 5 && limit > 0:
		t := m.types[m.r.Intn(limit)]
		return t.name, t.name, t.form != "pointer"
	case n < 7 && len(m.types) > 0:
		t := m.types[m.r.Intn(len(m.types))]
		return "*" + t.name, t.name, t.form == "struct" || t.form == "basic"
	case n < 9:
		text, kind, ok := m.foreign(f, func(t types.Type) bool { _, isPointer := t.Underlying().(*types.Pointer); return !isPointer })
		if !ok {
			return "", "", false
		}
		if _, isInterface := kind.Underlying().(*types.Interface); !isInterface && m.chance(40) {
			text = "*" + text
		}
		return text, text[strings.LastIndexAny(text, ".*")+1:], true
	case n == 9:
		name := m.one("error", "string", "bool")
		return name, name, true
	}
	return "", "", false
}

// structure writes a struct type, and notes its fields.
func (m *made) structure(f *fileMade, depth, limit int, fields map[string]bool) string {
	var lines []string
	for n := m.r.Intn(5); n > 0; n-- {
		tag := ""
		if m.chance(10) {
			tag = " " + m.one("`json:\"a\"`", `"tag"`, `""`)
		}
		if text, name, ok := m.embedded(f, limit); ok && m.chance(40) {
			if !fields[name] {
				fields[name] = true
				lines = append(lines, text+tag)
			}
			continue
		}
		var names []string
		for _, name := range m.some(fieldNames, 1+m.r.Intn(2)) {
			if m.chance(5) {
				names = append(names, "_")
			} else if !fields[name] {
				fields[name] = true
				names = append(names, name)
			}
		}
		if len(names) > 0 {
			lines = append(lines, strings.Join(names, ", ")+" "+m.written(f, depth+1, limit)+tag)
		}
	}
	if depth > 0 || m.chance(20) {
		return "struct{ " + strings.Join(lines, "; ") + " }"
	}
	return "struct {\n\t" + strings.Join(lines, "\n\t") + "\n}"
}

// interfaceText writes an interface type.
func (m *made) interfaceText(f *fileMade, depth int) string {
	var lines []string
	for _, name := range m.some(methodNames, m.r.Intn(3)) {
		lines = append(lines, name+m.signature(f, depth+1, ""))
	}
	return "interface{ " + strings.Join(lines, "; ") + " }"
}

// signature writes parameters and results. A receiver's name is not repeated.
func (m *made) signature(f *fileMade, depth int, receiver string) string {
	free := m.some(append(append([]string{}, localNames...), predeclared[:4]...), 12)
	next := func() string {
		for len(free) > 0 {
			name := free[0]
			free = free[1:]
			if name != receiver {
				return name
			}
		}
		return "_"
	}
	list := func(count int, isNamed bool) string {
		var groups []string
		for ; count > 0; count-- {
			text := m.written(f, depth+1, len(m.types))
			if isNamed {
				names := next()
				if m.chance(10) {
					names = "_"
				}
				if m.chance(25) {
					names += ", " + next()
				}
				text = names + " " + text
			}
			groups = append(groups, text)
		}
		return strings.Join(groups, ", ")
	}
	text := "(" + list(m.r.Intn(3), m.chance(80)) + ")"
	switch n := m.r.Intn(10); {
	case n < 4:
		return text + " " + m.resultText(f, depth)
	case n < 6:
		return text + " (" + list(1+m.r.Intn(2), m.chance(50)) + ")"
	}
	return text
}

// resultText writes one result, which does not begin with a parenthesis.
func (m *made) resultText(f *fileMade, depth int) string {
	text := m.written(f, depth+1, len(m.types))
	if strings.HasPrefix(text, "(") {
		return "int"
	}
	return text
}

// aliased picks what an alias stands for: a type of the package, one of another, or a predeclared one. It has its fields and methods.
func (m *made) aliased(f *fileMade, t *typeMade, limit int) string {
	if n := m.r.Intn(10); n < 6 && limit > 0 {
		other := m.types[m.r.Intn(limit)]
		t.form, t.isFree, t.fields, t.methods = other.form, other.isFree, other.fields, other.methods
		return other.name
	} else if n < 9 {
		if name, kind, ok := m.foreign(f, always); ok {
			t.form = formOf(kind)
			return name
		}
	}
	name := m.one("int", "string", "bool", "error", "any")
	t.form = formOf(types.Universe.Lookup(name).Type())
	return name
}

func formOf(kind types.Type) string {
	switch kind.Underlying().(type) {
	case *types.Struct:
		return "struct"
	case *types.Interface:
		return "interface"
	case *types.Pointer:
		return "pointer"
	}
	return "basic"
}

// declareTypes makes the types of the package, and their methods.
func (m *made) declareTypes() {
	for _, name := range m.some(m.names.types, 4+m.r.Intn(5)) {
		form := m.one("struct", "struct", "struct", "basic", "interface", "basic", "same", "pointer", "alias", "alias", "alias", "alias")
		m.types = append(m.types, &typeMade{name: name, form: form, fields: map[string]bool{}, methods: map[string]bool{}})
	}
	texts := make([]string, len(m.types))
	places := make([]*fileMade, len(m.types))
	for i, t := range m.types {
		f := m.file()
		places[i] = f
		if t.form == "alias" {
			texts[i] = "= " + m.aliased(f, t, i)
			continue
		}
		t.isFree = t.form != "interface" && t.form != "pointer"
		switch t.form {
		case "struct":
			texts[i] = m.structure(f, 0, i, t.fields)
		case "basic":
			texts[i] = m.one("int", "string", "bool", "int")
		case "interface":
			texts[i] = m.interfaceText(f, 0)
		case "pointer":
			texts[i] = "*" + m.types[m.r.Intn(len(m.types))].name
			if m.chance(30) {
				texts[i] = "*int"
			}
		case "same":
			t.form, texts[i] = "basic", "int"
			if i > 0 {
				other := m.types[m.r.Intn(i)]
				t.form, texts[i], t.isFree = other.form, other.name, other.form != "interface" && other.form != "pointer"
				for name := range other.fields {
					t.fields[name] = true
				}
			}
		}
	}
	for i, t := range m.types {
		places[i].pieces = append(places[i].pieces, "type "+t.name+" "+texts[i]+"\n")
		m.declareMethods(t)
	}
}

// declareMethods makes the methods of a type.
func (m *made) declareMethods(t *typeMade) {
	if !t.isFree {
		return
	}
	for _, name := range m.some(append([]string{"a", "x", "_"}, methodNames...), m.r.Intn(4)) {
		if t.fields[name] || name != "_" && t.methods[name] {
			continue
		}
		t.methods[name] = true
		receiver := m.one("r", "t", "x", "self", "_", "")
		f := m.file()
		base := m.one("", "*") + t.name
		header := "func (" + base + ") " + name
		if receiver != "" {
			header = "func (" + receiver + " " + base + ") " + name
		}
		m.addFunc(f, header+m.signature(f, 0, receiver))
	}
}

// addFunc adds a function without its body.
func (m *made) addFunc(f *fileMade, header string) {
	m.funcs = append(m.funcs, &funcMade{file: f, piece: len(f.pieces), header: header})
	f.pieces = append(f.pieces, "")
}

func (m *made) declareFuncs() {
	for _, name := range m.some(m.names.funcs, 3+m.r.Intn(4)) {
		f := m.file()
		m.addFunc(f, "func "+name+m.signature(f, 0, ""))
	}
	if m.chance(30) {
		m.addFunc(m.file(), "func init()")
	}
	if m.chance(15) {
		m.addFunc(m.file(), "func init()")
	}
	if m.chance(10) {
		m.addFunc(m.file(), "func _()")
	}
}

// text is a file's text. Bodies that are not made yet are left out of it, as functions that panic.
func (m *made) text(f *fileMade, isStub bool) string {
	var out strings.Builder
	if m.path != "ex.com/lib" && f.name == "b.go" && len(f.pieces)%2 == 0 {
		out.WriteString("// A comment before the clause: ü.\n")
	}
	fmt.Fprintf(&out, "package %s\n\n", m.clause)
	for _, line := range f.imports {
		out.WriteString(line + "\n")
	}
	bodies := map[int]string{}
	for _, fn := range m.funcs {
		if fn.file == f {
			bodies[fn.piece] = fn.header + " { for {} }\n"
		}
	}
	for at, piece := range f.pieces {
		if body, ok := bodies[at]; ok && isStub {
			piece = body
		}
		out.WriteString(piece + "\n")
	}
	return out.String()
}

var errorShown = 0

// check checks what stands outside the functions, and finds the objects of types and functions.
func (m *made) check() bool {
	fset := token.NewFileSet()
	var trees []*ast.File
	for _, f := range m.files {
		tree, err := parser.ParseFile(fset, f.name, m.text(f, true), 0)
		if err != nil {
			fail(fmt.Errorf("%v in\n%s", err, m.text(f, true)))
		}
		trees = append(trees, tree)
	}
	isRight := true
	info := &types.Info{Defs: map[*ast.Ident]types.Object{}}
	config := types.Config{Importer: m, Error: func(err error) {
		if e, ok := err.(types.Error); ok && e.Soft {
			return
		}
		isRight = false
	}}
	m.pkg, _ = config.Check(m.path, fset, trees, info)
	if !isRight {
		return false
	}
	byFile := map[*fileMade][]*types.Func{}
	for at, tree := range trees {
		for _, decl := range tree.Decls {
			if fn, ok := decl.(*ast.FuncDecl); ok {
				byFile[m.files[at]] = append(byFile[m.files[at]], info.Defs[fn.Name].(*types.Func))
			}
		}
	}
	for _, f := range m.files {
		var own []*funcMade
		for _, fn := range m.funcs {
			if fn.file == f {
				own = append(own, fn)
			}
		}
		sort.SliceStable(own, func(a, b int) bool { return own[a].piece < own[b].piece })
		for at, fn := range own {
			fn.object = byFile[f][at]
		}
	}
	m.enter()
	return true
}

// Import answers the packages that are made before.
func (m *made) Import(path string) (*types.Package, error) {
	for _, other := range m.others {
		if other.path == path {
			return other.pkg, nil
		}
	}
	return nil, fmt.Errorf("no package %s", path)
}

// addEntry adds a declaration outside functions.
func (m *made) addEntry(e *entry) {
	e.pkg = m
	if m.top[e.name] == nil {
		m.top[e.name] = e
		m.list = append(m.list, e)
	}
}

// enter notes the types and functions, and the names of all members.
func (m *made) enter() {
	names := map[string]bool{"Error": true}
	for _, name := range m.pkg.Scope().Names() {
		switch object := m.pkg.Scope().Lookup(name).(type) {
		case *types.TypeName:
			m.addEntry(&entry{name: name, kind: 't', typ: object.Type()})
		case *types.Func:
			m.addEntry(&entry{name: name, kind: 'f', typ: object.Type()})
		}
	}
	basics := []types.Type{types.Typ[types.Int], types.Typ[types.String], types.Typ[types.Bool]}
	m.known = append(m.known, basics...)
	m.known = append(m.known, types.Universe.Lookup("error").Type(), types.Universe.Lookup("any").Type())
	for _, p := range append([]*made{m}, m.others...) {
		for _, e := range p.list {
			if e.kind == 't' && (p == m || ast.IsExported(e.name)) {
				m.known = append(m.known, e.typ, e.typ, types.NewPointer(e.typ))
			}
		}
		for _, t := range p.types {
			names[t.name] = true
			for name := range t.fields {
				names[name] = true
			}
		}
	}
	for _, name := range append(append([]string{}, methodNames...), fieldNames...) {
		names[name] = true
	}
	for name := range names {
		m.member = append(m.member, name)
	}
	sort.Strings(m.member)
}

var mark = regexp.MustCompile(`«(\w+)»`)

// final takes the marks of faults out of a file's text, and notes where they stood. A mark `ok` is of a place where a rule is looked for in vain.
func (m *made) final(f *fileMade) (string, []string) {
	text := m.text(f, false)
	var out strings.Builder
	var put []string
	at := 0
	for _, found := range mark.FindAllStringSubmatchIndex(text, -1) {
		out.WriteString(text[at:found[0]])
		if rule := text[found[2]:found[3]]; rule != "ok" {
			put = append(put, fmt.Sprintf("put %s/%s:%d %s", m.path, f.name, out.Len(), rule))
		}
		at = found[1]
	}
	out.WriteString(text[at:])
	return out.String(), put
}

// makePackage makes a package, with a mistake where one is given.
func makePackage(r *rand.Rand, path, clause string, names pool, others []*made, wrong *mistake) *made {
	for try := 0; ; try++ {
		m := &made{r: r, path: path, clause: clause, names: names, others: others, top: map[string]*entry{}, members: map[behind]member{}, wrong: wrong}
		for _, name := range []string{"a.go", "b.go", "c.go"}[:1+r.Intn(3)] {
			m.files = append(m.files, m.newFile(name))
		}
		m.declareTypes()
		m.declareFuncs()
		if wrong != nil {
			wrong.support(m)
		}
		if m.check() {
			m.declareValues()
			m.fill()
			if wrong == nil || m.placed {
				return m
			}
		}
		if try > 400 {
			name := ""
			if wrong != nil {
				name = wrong.name
			}
			fail(fmt.Errorf("no package can be made: %s", name))
		}
	}
}

// newFile makes a file and its imports.
func (m *made) newFile(name string) *fileMade {
	f := &fileMade{name: name, quals: map[*made]string{}}
	for at, other := range m.others {
		qualifier := "q"
		if len(m.others) > 1 {
			qualifier += letters[at : at+1]
		}
		switch n := m.r.Intn(20); {
		case n < 8:
			f.imports = append(f.imports, fmt.Sprintf("import %q", other.path))
			f.quals[other] = other.clause
		case n < 12:
			f.imports = append(f.imports, fmt.Sprintf("import (\n\t%s %q\n)", qualifier, other.path))
			f.quals[other] = qualifier
		case n < 15:
			f.imports = append(f.imports, fmt.Sprintf("import . \"ex.com/\\x%02x%s\"", other.path[7], other.path[8:]))
			f.quals[other] = "."
		case n < 16:
			f.imports = append(f.imports, fmt.Sprintf("import _ %q", other.path))
		default:
			continue
		}
		f.targets = append(f.targets, other)
	}
	return f
}

// workspaceText makes the archive of a workspace: half are correct, in the others one mistake stands.
func workspaceText(seed int64, n int) (string, string) {
	r := rand.New(rand.NewSource(seed))
	form := "correct"
	var wrong *mistake
	if n%4 == 1 {
		wrong = mistakes[(n/4)%len(mistakes)]
		form = wrong.name
	}
	lib := makePackage(r, "ex.com/lib", []string{"lib", "kit"}[r.Intn(2)], libNames, nil, nil)
	p := makePackage(r, "ex.com/p", "p", ownNames, []*made{lib}, wrong)
	var out, texts strings.Builder
	changed := -1
	if n%4 == 3 {
		changed = r.Intn(len(p.files))
	}
	for _, m := range []*made{lib, p} {
		for at, f := range m.files {
			text, put := m.final(f)
			if !isInGrammar(text) {
				fail(fmt.Errorf("outside the grammar, %s:\n%s", form, text))
			}
			for _, line := range put {
				fmt.Fprintln(&out, line)
			}
			if m == p && at == changed {
				form, text = mutate(r, text, n/4)
			}
			fmt.Fprintf(&texts, "-- %s/%s --\n%s", m.path, f.name, text)
		}
	}
	if wrong != nil && wrong.aid {
		texts.WriteString(aidText)
	}
	return form, "form " + form + "\n" + out.String() + texts.String()
}

// writeCounts writes counts in order of their names.
func writeCounts(out *os.File, title string, counts map[string]int) {
	var names []string
	for name := range counts {
		names = append(names, name)
	}
	sort.Strings(names)
	for _, name := range names {
		fmt.Fprintf(out, "%s %s: %d\n", title, name, counts[name])
	}
}
