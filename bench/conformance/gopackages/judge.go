package main

import (
	"fmt"
	"go/ast"
	"go/constant"
	"go/parser"
	"go/token"
	"go/types"
	"io"
	"path"
	"reflect"
	"sort"
	"strconv"
	"strings"
)

// A place is an offset in bytes of a file, which is named with the path of its package.
type place struct {
	file   string
	offset int
}

func (p place) String() string { return p.file + ":" + strconv.Itoa(p.offset) }

// An oddity is an error of go/types.
type oddity struct {
	at    place // where go/types says that it stands
	start place // the first byte of what it is about
	code  string
	text  string
	soft  bool
	nodes []node // the nodes round it, from the inside out
}

// A node is a piece of the tree round an error.
type node struct {
	kind   string
	at     place
	end    int
	second place // of a call its opening parenthesis, of a selector the name behind the dot, of a specification its first value, behind a star the last identifier of a name
	third  place // of a function its name, of a field its type's name
	isBare bool  // of a function, that it has an empty list of results and no parameters
}

// A use is what an identifier denotes.
type use struct {
	spelling, decl string
}

// What go/types says of a workspace.
type judgement struct {
	fset    *token.FileSet
	trees   map[string][]*ast.File
	files   map[string]*ast.File
	texts   map[string]string
	checked map[string]*types.Package
	info    *types.Info
	uses    map[place]use
	paths   map[place]string
	consts  map[place]string
	// embedded has the last identifier of each embedded field by its first byte, where go/types has the field.
	embedded map[token.Pos]token.Pos
	outer    map[place]bool      // which of these are declared outside functions
	errors   map[string][]oddity // by package
	put      map[place][]string  // the faults that were put in
	form     string
	order    []string // the packages by path
	// refused has the rule of each import that the go command refuses, by its package and path, and broken the packages whose files are none for Go, where a
	// listing is there.
	refused map[string]map[string]string
	broken  map[string]bool
}

func (j *judgement) place(at token.Pos) place {
	position := j.fset.Position(at)
	return place{position.Filename, position.Offset}
}

// Import checks a package, once.
func (j *judgement) Import(from string) (*types.Package, error) {
	if p, ok := j.checked[from]; ok {
		if p == nil {
			return nil, fmt.Errorf("import cycle")
		}
		return p, nil
	}
	trees := j.trees[from]
	if trees == nil {
		return nil, fmt.Errorf("no package %s", from)
	}
	j.checked[from] = nil
	config := types.Config{Importer: importer{j, from}, Error: func(err error) { j.complain(from, err) }, Sizes: types.SizesFor("gc", "amd64")}
	p, _ := config.Check(from, j.fset, trees, j.info)
	j.checked[from] = p
	return p, nil
}

// complain notes an error. Those of go/types that begin with a tab continue the one before.
func (j *judgement) complain(from string, err error) {
	e, ok := err.(types.Error)
	if !ok {
		j.errors[from] = append(j.errors[from], oddity{code: "other", text: err.Error()})
		return
	}
	if strings.HasPrefix(e.Msg, "\t") {
		return
	}
	value := reflect.ValueOf(e)
	start := token.Pos(value.FieldByName("go116start").Int())
	code := codeName(int(value.FieldByName("go116code").Int()))
	at := j.place(e.Pos)
	odd := oddity{at: at, start: at, code: code, text: strings.Join(strings.Fields(e.Msg), " "), soft: e.Soft}
	if start.IsValid() {
		odd.start = j.place(start)
	}
	odd.nodes = j.around(e.Pos)
	j.errors[from] = append(j.errors[from], odd)
}

// around finds the nodes that hold a place, from the inside out.
func (j *judgement) around(at token.Pos) []node {
	file := j.files[j.fset.Position(at).Filename]
	var found []node
	if file == nil {
		return nil
	}
	ast.Inspect(file, func(n ast.Node) bool {
		if n == nil || at < n.Pos() || n.End() < at {
			return false
		}
		found = append([]node{j.node(n)}, found...)
		return true
	})
	return found
}

// node tells what an error's table may name of a node.
func (j *judgement) node(n ast.Node) node {
	kind := strings.TrimPrefix(reflect.TypeOf(n).String(), "*ast.")
	one := node{kind: kind, at: j.place(n.Pos()), end: j.place(n.End()).offset}
	one.second, one.third = one.at, one.at
	switch n := n.(type) {
	case *ast.CallExpr:
		one.second = j.place(n.Lparen)
	case *ast.FuncDecl:
		one.third = j.place(n.Name.Pos())
		one.isBare = n.Type.Results != nil && n.Type.Results.NumFields() == 0 && n.Type.Params.NumFields() == 0
	case *ast.Field:
		one.second, one.third = j.fieldPlaces(n)
	case *ast.SelectorExpr:
		one.second = j.place(n.Sel.Pos())
	case *ast.StarExpr:
		one.second = j.place(lastName(n.X))
	case *ast.ImportSpec:
		one.second = j.place(n.Path.Pos())
	case *ast.ValueSpec:
		if len(n.Values) > 0 {
			one.second = j.place(n.Values[0].Pos())
		}
	}
	return one
}

// isBehindLatePointer tells whether the selector of an error stands behind a defined pointer type that is defined by the name of another one. The Go
// specification says that a field is selected there; go/types of Go 1.19 knows such a type for a pointer type only after it was asked for another reason.
func (j *judgement) isBehindLatePointer(odd *oddity) bool {
	for selector := range j.lateSelectors() {
		if j.place(selector.Sel.Pos()) == odd.at {
			return true
		}
	}
	return false
}

// lateSelectors gives the selectors behind defined types that are defined by the name of a defined pointer type.
func (j *judgement) lateSelectors() map[*ast.SelectorExpr]bool {
	late, found := j.latePointers(), map[*ast.SelectorExpr]bool{}
	for _, file := range j.files {
		ast.Inspect(file, func(n ast.Node) bool {
			if selector, ok := n.(*ast.SelectorExpr); ok {
				if named, ok := j.info.Types[selector.X].Type.(*types.Named); ok && late[named.Obj()] {
					found[selector] = true
				}
			}
			return true
		})
	}
	return found
}

// latePointers gives the types that are defined by the name of a type with a pointer type under it.
func (j *judgement) latePointers() map[types.Object]bool {
	found := map[types.Object]bool{}
	for _, file := range j.files {
		ast.Inspect(file, func(n ast.Node) bool {
			if spec, ok := n.(*ast.TypeSpec); ok && isLiteralType(spec.Type) && !isStruct(spec.Type) {
				if object := j.info.Defs[spec.Name]; object != nil && isPointer(object.Type()) {
					found[object] = true
				}
			}
			return true
		})
	}
	return found
}

// isPointer tells whether a pointer type lies under a type, names passed.
func isPointer(one types.Type) bool {
	for steps := 0; steps < 100; steps++ {
		named, ok := one.(*types.Named)
		if !ok {
			break
		}
		one = named.Underlying()
	}
	_, ok := one.(*types.Pointer)
	return ok
}

// fieldPlaces gives where the name of a field's type begins, and its last identifier.
func (j *judgement) fieldPlaces(field *ast.Field) (place, place) {
	expr := field.Type
	for {
		star, ok := expr.(*ast.StarExpr)
		if !ok {
			break
		}
		expr = star.X
	}
	if selector, ok := expr.(*ast.SelectorExpr); ok {
		return j.place(selector.Sel.Pos()), j.place(expr.Pos())
	}
	return j.place(expr.Pos()), j.place(expr.Pos())
}

// add parses a file of an archive.
func (j *judgement) add(where, text string) {
	from := path.Dir(where)
	j.texts[where] = text
	if j.form == "worked" {
		j.readNotes(where, text)
	}
	file, err := parser.ParseFile(j.fset, where, text, parser.SkipObjectResolution)
	if err != nil && (goList == nil || !isOfPaths(err)) {
		j.errors[from] = append(j.errors[from], oddity{code: "parse", text: err.Error(), at: place{where, 0}})
		return
	}
	j.trees[from] = append(j.trees[from], file)
	j.files[where] = file
	ast.Inspect(file, func(n ast.Node) bool {
		if field, ok := n.(*ast.Field); ok && len(field.Names) == 0 {
			j.embedded[field.Type.Pos()] = lastName(field.Type)
		}
		return true
	})
}

// lastName is the place of the last identifier of a type's name.
func lastName(expr ast.Expr) token.Pos {
	switch expr := expr.(type) {
	case *ast.StarExpr:
		return lastName(expr.X)
	case *ast.SelectorExpr:
		return expr.Sel.Pos()
	}
	return expr.Pos()
}

// read parses the files of an archive. What stands before the first tells its form and the faults that were put in.
func (j *judgement) read(archive string) {
	where, text := "", strings.Builder{}
	flush := func() {
		if where != "" {
			j.add(where, text.String())
		} else {
			j.head(text.String())
		}
	}
	for _, line := range strings.SplitAfter(archive, "\n") {
		if strings.HasPrefix(line, "-- ") && strings.HasSuffix(line, " --\n") {
			flush()
			where = strings.TrimSuffix(line[3:], " --\n")
			text.Reset()
			continue
		}
		text.WriteString(line)
	}
	flush()
}

func (j *judgement) head(text string) {
	for _, line := range strings.Split(text, "\n") {
		words := strings.Fields(line)
		if len(words) == 2 && words[0] == "form" {
			j.form = words[1]
		}
		if len(words) == 3 && words[0] == "put" {
			at := placeOf(words[1])
			j.put[at] = append(j.put[at], words[2])
		}
	}
}

// placeOf reads a place.
func placeOf(word string) place {
	cut := strings.LastIndex(word, ":")
	offset, err := strconv.Atoi(word[cut+1:])
	if err != nil {
		fail(err)
	}
	return place{word[:cut], offset}
}

// decl tells where an object is declared.
func (j *judgement) decl(object types.Object) string {
	if name, ok := object.(*types.PkgName); ok {
		return "package " + name.Imported().Path()
	}
	if object.Pkg() == nil {
		if _, ok := object.(*types.Func); ok {
			return "universe.error.Error"
		}
		return "universe." + object.Name()
	}
	at := object.Pos()
	if field, ok := object.(*types.Var); ok && field.Embedded() && j.embedded[at].IsValid() {
		at = j.embedded[at]
	}
	return j.place(at).String()
}

// judge says what go/types says of an archive.
func judge(archive string) *judgement {
	j := &judgement{
		fset: token.NewFileSet(), trees: map[string][]*ast.File{}, files: map[string]*ast.File{}, texts: map[string]string{}, checked: map[string]*types.Package{},
		uses: map[place]use{}, paths: map[place]string{}, consts: map[place]string{}, outer: map[place]bool{}, embedded: map[token.Pos]token.Pos{}, errors: map[string][]oddity{}, put: map[place][]string{},
		info: &types.Info{Types: map[ast.Expr]types.TypeAndValue{}, Uses: map[*ast.Ident]types.Object{}, Defs: map[*ast.Ident]types.Object{},
			Selections: map[*ast.SelectorExpr]*types.Selection{}},
	}
	j.read(archive)
	if goList != nil {
		j.refuseImports()
	}
	for from := range j.trees {
		j.order = append(j.order, from)
	}
	for from := range j.broken {
		if j.trees[from] == nil {
			j.order = append(j.order, from)
		}
	}
	sort.Strings(j.order)
	for _, from := range j.order {
		j.Import(from)
	}
	j.gather()
	return j
}

// gather notes what is compared.
func (j *judgement) gather() {
	for ident, object := range j.info.Uses {
		j.uses[j.place(ident.Pos())] = use{ident.Name, j.decl(object)}
	}
	for selector, selection := range j.info.Selections {
		steps := selection.Index()
		j.paths[j.place(selector.Sel.Pos())] = fmt.Sprint(steps[:len(steps)-1])
	}
	for ident, object := range j.info.Defs {
		if c, ok := object.(*types.Const); ok && c.Val() != nil && c.Val().Kind() != constant.Unknown {
			j.consts[j.place(ident.Pos())] = valueText(c.Val())
			j.outer[j.place(ident.Pos())] = c.Pkg() != nil && c.Pkg().Scope() == c.Parent()
		}
	}
	for _, file := range j.files {
		ast.Inspect(file, func(n ast.Node) bool {
			switch n := n.(type) {
			case *ast.ImportSpec:
				j.importUse(n)
			case *ast.ValueSpec:
				j.initialisers(n)
			case *ast.CallExpr:
				j.call(n)
			case *ast.AssignStmt:
				if n.Tok == token.DEFINE {
					j.oldNames(n)
				}
			}
			return true
		})
	}
}

// oldNames takes out the names left of `:=`, which are no occurrences.
func (j *judgement) oldNames(short *ast.AssignStmt) {
	for _, left := range short.Lhs {
		delete(j.uses, j.place(left.Pos()))
	}
}

// call notes what a call calls: a function, a method, or for a conversion the type under stars and parentheses.
func (j *judgement) call(call *ast.CallExpr) {
	callee := call.Fun
	for {
		switch inner := callee.(type) {
		case *ast.ParenExpr:
			callee = inner.X
			continue
		case *ast.StarExpr:
			callee = inner.X
			continue
		case *ast.SelectorExpr:
			callee = inner.Sel
			continue
		}
		break
	}
	if ident, ok := callee.(*ast.Ident); ok && j.info.Uses[ident] != nil {
		j.uses[j.place(call.Lparen)] = use{"(", j.decl(j.info.Uses[ident])}
	}
}

// importUse notes what an import comes to.
func (j *judgement) importUse(spec *ast.ImportSpec) {
	from, err := strconv.Unquote(spec.Path.Value)
	if err == nil && j.checked[from] != nil {
		j.uses[j.place(spec.Path.Pos())] = use{spec.Path.Value, "package " + from}
	}
}

// initialisers notes the values of constant expressions that stand alone.
func (j *judgement) initialisers(spec *ast.ValueSpec) {
	for _, value := range spec.Values {
		if found, ok := j.info.Types[value]; ok && found.Value != nil && found.Value.Kind() != constant.Unknown {
			j.consts[j.place(value.Pos())] = valueText(found.Value)
		}
	}
}

// valueText shows a constant.
func valueText(value constant.Value) string {
	switch value.Kind() {
	case constant.String:
		return quote(constant.StringVal(value))
	case constant.Bool:
		return strconv.FormatBool(constant.BoolVal(value))
	}
	return value.ExactString()
}

// quote shows a text as test_cases does: a byte from a space to `~` stands for itself, but \xHH for a quotation mark, a backslash and any other byte.
func quote(text string) string {
	var out strings.Builder
	out.WriteByte('"')
	for i := 0; i < len(text); i++ {
		if b := text[i]; b == '"' || b == '\\' || b < 32 || b > 126 {
			fmt.Fprintf(&out, "\\x%02x", b)
		} else {
			out.WriteByte(b)
		}
	}
	out.WriteByte('"')
	return out.String()
}

// inOrder gives the places of a file in order.
func inOrder[V any](all map[place]V, file string) []place {
	var found []place
	for at := range all {
		if at.file == file {
			found = append(found, at)
		}
	}
	sort.Slice(found, func(a, b int) bool { return found[a].offset < found[b].offset })
	return found
}

// writeFile writes what is said of a file.
func (j *judgement) writeFile(out io.Writer, file string) {
	fmt.Fprintf(out, "file %s\n", path.Base(file))
	for _, at := range inOrder(j.uses, file) {
		fmt.Fprintf(out, "%d use %s %s\n", at.offset, j.uses[at].spelling, j.uses[at].decl)
	}
	for _, at := range inOrder(j.paths, file) {
		fmt.Fprintf(out, "path %d %s\n", at.offset, j.paths[at])
	}
	for _, at := range inOrder(j.consts, file) {
		fmt.Fprintf(out, "const %d %s\n", at.offset, j.consts[at])
	}
}

func (j *judgement) filesOf(from string) []string {
	var found []string
	for file := range j.files {
		if path.Dir(file) == from {
			found = append(found, file)
		}
	}
	sort.Strings(found)
	return found
}

// write writes what go/types says of each package.
func (j *judgement) write(out io.Writer) {
	for _, from := range j.order {
		fmt.Fprintf(out, "package %s\n", from)
		for _, file := range j.filesOf(from) {
			j.writeFile(out, file)
		}
		for _, odd := range j.errors[from] {
			var kinds []string
			for _, n := range odd.nodes {
				kinds = append(kinds, fmt.Sprintf("%s:%d", n.kind, n.at.offset))
			}
			fmt.Fprintf(out, "error %s %d %s %v %s %v\n", odd.at, odd.start.offset, odd.code, odd.soft, odd.text, kinds)
		}
	}
	for at, rules := range j.put {
		fmt.Fprintf(out, "put %s %v\n", at, rules)
	}
}

// writeFake writes an answer in which the faults that were put in stand.
func (j *judgement) writeFake(out io.Writer) {
	for _, from := range j.order {
		fmt.Fprintf(out, "package %s %s\n", from, path.Base(from))
		for _, file := range j.filesOf(from) {
			j.writeFile(out, file)
			faults := j.put
			if goList != nil {
				faults = j.assumed(from)
			}
			for _, at := range inOrder(faults, file) {
				for _, rule := range faults[at] {
					fmt.Fprintf(out, "fault %d %s\n", at.offset, rule)
				}
			}
		}
	}
}
