package main

import (
	"fmt"
	"go/ast"
	"go/constant"
	"go/parser"
	"go/token"
	"go/types"
	"io/fs"
	"os"
	"path"
	"path/filepath"
	"sort"
	"strconv"
	"strings"
)

// A source is a file of a package, with the pieces that are left out of it: these are spaces, so that all places stay what they were.
type source struct {
	name   string
	text   []byte
	tree   *ast.File
	isRead bool // the tree is that of the text
}

// A reduced is a package whose declarations outside the grammar, and those that name them, are left out.
type reduced struct {
	path    string
	name    string // in the clauses
	files   []*source
	checked *types.Package
	rounds  int
}

// A reducer reduces the packages of folder trees, each after those that it imports.
type reducer struct {
	module  string
	isOwn   bool              // what only govisd refuses is left out too
	isLast  bool              // nothing else of a package is left that only govisd refuses
	folders map[string]string // of each path
	done    map[string]*reduced
	fset    *token.FileSet
	kept    map[string]int // what is left
	decls   map[string]int // the declarations that are left, by kind
	out     map[string]int // what was left out, by reason
	gone    []string       // the folders and files that were left out whole, each with its reason
	alone   []refusal      // what was left out because only govisd refuses it
}

// highest is near the height of the highest tree: what is higher counts as outside the grammar.
const highest = 190

// find notes the folders below a root, by their paths. The folder `vendor` of Go's own library holds packages of other paths; what lies in others is left out, as
// `govisd check` passes over them.
func (r *reducer) find(root string) {
	root, err := filepath.EvalSymlinks(root)
	if err != nil {
		fail(err)
	}
	err = filepath.WalkDir(root, func(file string, entry fs.DirEntry, failed error) error {
		if failed != nil || !entry.IsDir() {
			return nil
		}
		name := entry.Name()
		if file != root && (name == "testdata" || strings.HasPrefix(name, ".") || strings.HasPrefix(name, "_")) || file == filepath.Join(root, "cmd") {
			return fs.SkipDir
		}
		below, _ := filepath.Rel(root, file)
		below = strings.TrimPrefix(filepath.ToSlash(below), "vendor/")
		switch {
		case below == "." || r.folders[below] != "":
		case name == "vendor" && below != name:
			return r.leaveOutFolder(below, file, "a folder that govisd passes over")
		case !isPath(r.module + "/" + below):
			return r.leaveOutFolder(below, file, "a path that no package may have (E1)")
		default:
			r.folders[below] = file
		}
		return nil
	})
	if err != nil {
		fail(err)
	}
}

// Import gives a package, reduced.
func (r *reducer) Import(to string) (*types.Package, error) {
	if p := r.reduce(strings.TrimPrefix(to, r.module+"/")); p != nil && p.checked != nil {
		return p.checked, nil
	}
	return nil, fmt.Errorf("no package %s", to)
}

// reduce leaves out of a package what is outside the grammar, then again and again what go/types refuses without it.
func (r *reducer) reduce(from string) *reduced {
	if p, ok := r.done[from]; ok {
		return p
	}
	r.done[from] = nil
	if r.folders[from] == "" || from == "unsafe" {
		return nil
	}
	p := &reduced{path: from, files: r.files(from)}
	if len(p.files) == 0 {
		return nil
	}
	for isChanged := true; isChanged; p.rounds++ {
		isChanged = r.round(p)
	}
	for _, f := range p.files {
		r.kept["files"]++
		r.kept["bytes"] += len(strings.Join(strings.Fields(string(f.text)), " "))
		r.kept["imports"] += len(f.tree.Imports)
		count(f.tree, r.decls)
		f.tree = nil
	}
	r.kept["packages"]++
	r.done[from] = p
	return p
}

// parse parses the files of a package that were changed, and leaves out of these what is outside the grammar, in the first round imports alone. It tells whether
// anything was.
func (r *reducer) parse(p *reduced) ([]*ast.File, bool) {
	isChanged := false
	var trees []*ast.File
	for _, f := range p.files {
		if !f.isRead {
			tree, err := parser.ParseFile(r.fset, p.path+"/"+f.name, f.text, parser.SkipObjectResolution)
			if err != nil {
				fail(err)
			}
			f.tree, f.isRead, p.name = tree, true, tree.Name.Name
			if p.rounds == 0 {
				r.imports(p, f)
				f.isRead, isChanged = false, true
			} else {
				isChanged = r.outside(f) || isChanged
			}
		}
		trees = append(trees, f.tree)
	}
	return trees, isChanged
}

// round parses and checks a package, and leaves out what is refused. It tells whether anything was.
func (r *reducer) round(p *reduced) bool {
	trees, isChanged := r.parse(p)
	if isChanged {
		return true
	}
	info := &types.Info{Types: map[ast.Expr]types.TypeAndValue{}, Uses: map[*ast.Ident]types.Object{}, Selections: map[*ast.SelectorExpr]*types.Selection{}}
	config := types.Config{Importer: r, Sizes: types.SizesFor("gc", "amd64"), Error: func(err error) {
		if e, ok := err.(types.Error); ok && !strings.HasPrefix(e.Msg, "\t") {
			isChanged = r.leaveOutAt(p, e.Pos, "what go/types refuses without it") || isChanged
		}
	}}
	p.checked, _ = config.Check(r.module+"/"+p.path, r.fset, trees, info)
	if isChanged || !r.isOwn {
		return isChanged
	}
	for _, r.isLast = range []bool{false, true} {
		for _, f := range p.files {
			isChanged = r.own(p, f, info) || isChanged
		}
		if isChanged {
			return true
		}
	}
	return false
}

// imports makes the paths of a file those of the workspace, and leaves out the imports of packages that it has not, and those that the go command refuses.
func (r *reducer) imports(p *reduced, f *source) {
	for at := len(f.tree.Imports) - 1; at >= 0; at-- {
		spec := f.tree.Imports[at]
		to, _ := strconv.Unquote(spec.Path.Value)
		to = strings.TrimPrefix(to, r.module+"/")
		found := r.reduce(to)
		if found == nil {
			r.blank(f, f.cover(spec), "imports of packages that are not there")
			continue
		}
		if !mayImport(r.module+"/"+p.path, r.module+"/"+to) || found.name == "main" {
			r.blank(f, f.cover(spec), "imports that the go command refuses")
			continue
		}
		written := strconv.Quote(r.module + "/" + to)
		behind := f.text[r.offset(spec.Path.End()):]
		f.text = []byte(string(f.text[:r.offset(spec.Path.Pos())]) + written + string(behind))
	}
}

func (r *reducer) offset(at token.Pos) int { return r.fset.Position(at).Offset }

// cover is what is left out with a specification: the whole declaration, where it has no other.
func (f *source) cover(spec ast.Node) ast.Node {
	for _, decl := range f.tree.Decls {
		if group, ok := decl.(*ast.GenDecl); ok && !group.Lparen.IsValid() && group.Specs[0] == spec {
			return group
		}
	}
	return spec
}

// blank leaves a node out, with a semicolon right behind it.
func (r *reducer) blank(f *source, n ast.Node, why string) {
	start, end := r.offset(n.Pos()), r.offset(n.End())
	f.isRead = false
	r.out[why]++
	for at := start; at < end; at++ {
		if f.text[at] != '\n' {
			f.text[at] = ' '
		}
	}
	for at := end; at < len(f.text) && (f.text[at] == ' ' || f.text[at] == ';'); at++ {
		if f.text[at] == ';' {
			f.text[at] = ' '
			break
		}
	}
}

// A piece is what may be left out: an import, a specification, a function, a field or a method of a type.
func (f *source) piece(at token.Pos) ast.Node {
	var found ast.Node
	ast.Inspect(f.tree, func(n ast.Node) bool {
		if n == nil || at < n.Pos() || n.End() <= at && n.End() != at {
			return false
		}
		switch n := n.(type) {
		case *ast.FuncDecl:
			found = n
			return false
		case ast.Spec:
			found = f.cover(n)
		case *ast.StructType:
			for _, field := range n.Fields.List {
				if field.Pos() <= at && at <= field.End() {
					found = field
				}
			}
		case *ast.InterfaceType:
			for _, field := range n.Methods.List {
				if field.Pos() <= at && at <= field.End() {
					found = field
				}
			}
		}
		return true
	})
	return found
}

// leaveOutAt leaves out the piece that holds a place.
func (r *reducer) leaveOutAt(p *reduced, at token.Pos, why string) bool {
	for _, f := range p.files {
		if f.tree.Pos() <= at && at <= f.tree.End() {
			if piece := f.piece(at); piece != nil && !f.isBlank(r, piece) {
				r.blank(f, piece, why)
				return true
			}
		}
	}
	return false
}

// isBlank tells whether a piece is left out already in this round.
func (f *source) isBlank(r *reducer, n ast.Node) bool {
	return len(strings.TrimSpace(string(f.text[r.offset(n.Pos()):r.offset(n.End())]))) == 0
}

// outside leaves out what is outside the grammar.
func (r *reducer) outside(f *source) bool {
	isChanged := false
	leave := func(n ast.Node, why string) {
		r.blank(f, n, why)
		isChanged = true
	}
	for _, decl := range f.tree.Decls {
		switch decl := decl.(type) {
		case *ast.FuncDecl:
			if decl.Body == nil || !isReceiver(decl.Recv) || !isWithin(decl) {
				leave(decl, "functions outside the grammar")
			}
		case *ast.GenDecl:
			for _, spec := range decl.Specs {
				r.outsideSpec(f, decl.Tok, spec, leave)
			}
		}
	}
	return isChanged
}

// outsideSpec leaves out a specification, or the fields and methods of its type that are outside the grammar.
func (r *reducer) outsideSpec(f *source, word token.Token, spec ast.Spec, leave func(n ast.Node, why string)) {
	switch spec := spec.(type) {
	case *ast.ValueSpec:
		if word == token.CONST && len(spec.Values) == 0 || !isWithin(spec) {
			leave(f.cover(spec), "constants and variables outside the grammar")
		}
	case *ast.TypeSpec:
		if spec.Assign.IsValid() && !isTypeName(spec.Type) || spec.TypeParams != nil || !isTypeWithin(spec.Type, func(n ast.Node) { leave(n, "fields and methods outside the grammar") }) {
			leave(f.cover(spec), "types outside the grammar")
		}
	}
}

// isTypeWithin tells whether a type is of the grammar, but for its fields and methods that are not, which are given.
func isTypeWithin(expr ast.Expr, outside func(n ast.Node)) bool {
	switch expr := expr.(type) {
	case *ast.StructType:
		for _, field := range expr.Fields.List {
			if len(field.Names) == 0 && !isStarred(field.Type) || !isWithin(field.Type) {
				outside(field)
			}
		}
		return true
	case *ast.InterfaceType:
		for _, method := range expr.Methods.List {
			if len(method.Names) != 1 || !isWithin(method) {
				outside(method)
			}
		}
		return true
	}
	return isWithin(expr)
}

// isWithin tells whether a piece is written in the grammar of docs/RULES.md.
func isWithin(root ast.Node) bool {
	isRight, height := true, 0
	ast.Inspect(root, func(n ast.Node) bool {
		if n == nil {
			height--
			return true
		}
		height++
		isRight = isRight && height < highest
		switch n := n.(type) {
		case *ast.BasicLit:
			isRight = isRight && (n.Kind == token.STRING || n.Kind == token.INT && isInt64(n.Value))
		case *ast.UnaryExpr:
			isRight = isRight && n.Op != token.ARROW
		case *ast.DeferStmt, *ast.GoStmt, *ast.SelectStmt, *ast.SwitchStmt, *ast.TypeSwitchStmt:
			isRight = false
		case *ast.BranchStmt:
			isRight = isRight && (n.Tok == token.BREAK || n.Tok == token.CONTINUE)
		case *ast.CallExpr:
			isRight = isRight && !n.Ellipsis.IsValid() && !hasWrittenType(n.Args)
		case *ast.DeclStmt:
			isRight = isRight && n.Decl.(*ast.GenDecl).Tok != token.TYPE
		case *ast.FuncType:
			isRight = isRight && isSignature(root, n)
		}
		isRight = isRight && isNodeInGrammar(n)
		return true
	})
	return isRight
}

// hasWrittenType tells whether a struct or interface type stands as an argument, as in `new(struct{})`.
func hasWrittenType(arguments []ast.Expr) bool {
	for _, argument := range arguments {
		switch unparen(argument).(type) {
		case *ast.StructType, *ast.InterfaceType:
			return true
		}
	}
	return false
}

// isInt64 tells whether a literal is of an integer of 64 bits with a sign.
func isInt64(text string) bool {
	value := constant.MakeFromLiteral(text, token.INT, 0)
	_, isExact := constant.Int64Val(value)
	return value.Kind() == constant.Int && isExact
}

// isSignature tells whether the type of a function is the signature of a declaration or of a method, and no type by itself.
func isSignature(root ast.Node, signature *ast.FuncType) bool {
	method, isField := root.(*ast.Field)
	isOne := isField && method.Type == signature
	ast.Inspect(root, func(n ast.Node) bool {
		switch n := n.(type) {
		case *ast.FuncDecl:
			isOne = isOne || n.Type == signature
		case *ast.InterfaceType:
			for _, method := range n.Methods.List {
				isOne = isOne || method.Type == signature && len(method.Names) == 1
			}
		}
		return !isOne
	})
	return isOne
}

// own leaves out what rules of docs/RULES.md refuse that Go does not have, and notes each such piece by its name.
func (r *reducer) own(p *reduced, f *source, info *types.Info) bool {
	isChanged := false
	leave := func(n ast.Node, name, why string) {
		if !f.isBlank(r, n) {
			r.blank(f, n, why)
			r.alone = append(r.alone, refusal{ruleOf(why), r.module + "/" + p.path, name, p.path + "/" + f.name, r.offset(n.Pos()), r.offset(n.End()), why})
			isChanged = true
		}
	}
	for _, decl := range f.tree.Decls {
		switch decl := decl.(type) {
		case *ast.FuncDecl:
			if why := r.ownReason(decl, info); why != "" {
				leave(decl, names(decl), why)
			}
		case *ast.GenDecl:
			for _, spec := range decl.Specs {
				r.ownSpec(f, spec, info, leave)
			}
		}
	}
	return isChanged
}

// ownSpec leaves out a specification, or the fields and methods of its type, that own rules refuse. A variable with a written type loses its initialiser where
// that is not constant.
func (r *reducer) ownSpec(f *source, spec ast.Spec, info *types.Info, leave func(n ast.Node, name, why string)) {
	switch spec := spec.(type) {
	case *ast.ValueSpec:
		why := r.ownReason(spec, info)
		if why == "" && !isConstant(spec.Values, info) {
			why = "initialisers that are not constant (X1)"
			if spec.Type != nil {
				leave(stretch{spec.Type.End(), spec.End()}, names(spec), why)
				return
			}
		}
		if why != "" {
			leave(f.cover(spec), names(spec), why)
		}
	case *ast.TypeSpec:
		fields := []*ast.Field{}
		switch written := spec.Type.(type) {
		case *ast.StructType:
			fields = written.Fields.List
		case *ast.InterfaceType:
			fields = written.Methods.List
		default:
			if why := r.ownReason(spec, info); why != "" {
				leave(f.cover(spec), names(spec), why)
			}
		}
		for _, field := range fields {
			if why := r.ownReason(field, info); why != "" {
				leave(field, names(spec)+"."+names(field), why)
			}
		}
	}
}

// A stretch is a part of a node.
type stretch struct{ from, to token.Pos }

func (s stretch) Pos() token.Pos { return s.from }

func (s stretch) End() token.Pos { return s.to }

// isConstant tells whether all of some expressions are constant.
func isConstant(values []ast.Expr, info *types.Info) bool {
	for _, value := range values {
		if info.Types[value].Value == nil {
			return false
		}
	}
	return true
}

// profile are the predeclared names that may be used.
var profile = map[string]bool{"any": true, "bool": true, "error": true, "int": true, "string": true, "true": true, "false": true, "nil": true, "len": true,
	"panic": true, "print": true, "println": true, "Error": true}

// bits are the operators that X1 refuses.
var bits = map[token.Token]bool{token.AND: true, token.OR: true, token.XOR: true, token.SHL: true, token.SHR: true, token.AND_NOT: true,
	token.AND_ASSIGN: true, token.OR_ASSIGN: true, token.XOR_ASSIGN: true, token.SHL_ASSIGN: true, token.SHR_ASSIGN: true, token.AND_NOT_ASSIGN: true}

// ownReason tells by which own rule a piece is refused, if any. Constants beyond 64 bits are looked for last, since govisd does not know the value of a constant that is
// made of what it refuses.
func (r *reducer) ownReason(root ast.Node, info *types.Info) string {
	why := ""
	note := func(is bool, text string) {
		if is && why == "" {
			why = text
		}
	}
	called := map[ast.Expr]bool{}
	ast.Inspect(root, func(n ast.Node) bool {
		switch n := n.(type) {
		case *ast.CallExpr:
			called[unparen(n.Fun)] = true
			note(isIntToString(n, info), "conversions of integers to strings (X1)")
			note(isPrintOfOther(n, info), "println of other types (C3)")
		case *ast.Ident:
			object := info.Uses[n]
			_, isFunc := object.(*types.Func)
			_, isBuiltin := object.(*types.Builtin)
			note(object != nil && object.Pkg() == nil && !profile[object.Name()], "predeclared names outside the profile (N7)")
			note((isFunc || isBuiltin) && !called[n], "functions as values (X1)")
		case *ast.SelectorExpr:
			selection := info.Selections[n]
			note(selection != nil && selection.Kind() == types.MethodExpr, "method expressions (N5)")
			note(selection != nil && selection.Kind() == types.MethodVal && !called[n], "methods as values (X1)")
			if called[n] || selection != nil {
				called[n.Sel] = true
			}
		case *ast.BinaryExpr:
			note(bits[n.Op], "bit operators and shifts (X1)")
		case *ast.AssignStmt:
			note(bits[n.Tok], "bit operators and shifts (X1)")
		case *ast.UnaryExpr:
			note(n.Op == token.XOR, "bit operators and shifts (X1)")
		}
		if expr, ok := n.(ast.Expr); ok {
			value := info.Types[expr].Value
			note(r.isLast && value != nil && !isNamed(expr) && !fits64(value), "constants beyond 64 bits (X1)")
		}
		return why == ""
	})
	return why
}

// isNamed tells whether an expression names a constant, whose own declaration is what is refused.
func isNamed(expr ast.Expr) bool {
	switch unparen(expr).(type) {
	case *ast.Ident, *ast.SelectorExpr:
		return true
	}
	return false
}

func unparen(expr ast.Expr) ast.Expr {
	for {
		inner, ok := expr.(*ast.ParenExpr)
		if !ok {
			return expr
		}
		expr = inner.X
	}
}

// isIntToString tells whether a call converts an `int` to a string. Other integers are of types outside the profile.
func isIntToString(call *ast.CallExpr, info *types.Info) bool {
	to := info.Types[call.Fun]
	if !to.IsType() || len(call.Args) != 1 || info.Types[call.Args[0]].Type == nil {
		return false
	}
	from, isBasic := info.Types[call.Args[0]].Type.Underlying().(*types.Basic)
	return basicOf(to.Type) == 's' && isBasic && (from.Kind() == types.Int || from.Kind() == types.UntypedInt)
}

// isPrintOfOther tells whether a call prints what is over neither of `bool`, `int` nor `string`.
func isPrintOfOther(call *ast.CallExpr, info *types.Info) bool {
	ident, ok := unparen(call.Fun).(*ast.Ident)
	if !ok || ident.Name != "println" && ident.Name != "print" {
		return false
	}
	for _, argument := range call.Args {
		if one := info.Types[argument].Type; one == nil || basicOf(one) == 0 {
			return true
		}
	}
	return false
}

// write writes the reduced packages, and tells how much is left of them, and what is left out: folders and files one by one, and in a file of its own each piece that
// only govisd refuses.
func (r *reducer) write(folder string) {
	for from, p := range r.done {
		if p == nil {
			continue
		}
		for _, f := range p.files {
			file := filepath.Join(folder, from, f.name)
			if err := os.MkdirAll(path.Dir(file), 0o777); err != nil {
				fail(err)
			}
			if err := os.WriteFile(file, f.text, 0o666); err != nil {
				fail(err)
			}
		}
	}
	writeCounts(os.Stdout, "kept", r.kept)
	writeCounts(os.Stdout, "kept", r.decls)
	writeCounts(os.Stdout, "left out:", r.out)
	sort.Strings(r.gone)
	for _, line := range r.gone {
		fmt.Println(line)
	}
	if r.isOwn {
		fmt.Printf("only govisd refuses %d pieces, named one by one in %s\n", len(r.alone), r.writeOwn(folder))
	}
	if r.kept["files"] == 0 {
		fail(fmt.Errorf("no file is left, so nothing can be checked"))
	}
}

// count counts the declarations of a file.
func count(tree *ast.File, decls map[string]int) {
	for _, decl := range tree.Decls {
		switch decl := decl.(type) {
		case *ast.FuncDecl:
			if decl.Recv != nil {
				decls["methods"]++
			} else {
				decls["functions"]++
			}
		case *ast.GenDecl:
			decls[map[token.Token]string{token.CONST: "constant specifications", token.VAR: "variable specifications", token.TYPE: "types", token.IMPORT: "import specifications"}[decl.Tok]] += len(decl.Specs)
		}
	}
}

// reduceAll reduces the packages below folders, and writes them as a workspace of a module.
func reduceAll(module, folder string, isOwn bool, roots []string) {
	if err := os.RemoveAll(folder); err != nil {
		fail(err)
	}
	r := &reducer{module: module, isOwn: isOwn, folders: map[string]string{}, done: map[string]*reduced{}, fset: token.NewFileSet(),
		kept: map[string]int{}, decls: map[string]int{}, out: map[string]int{}}
	for _, root := range roots {
		r.find(root)
	}
	var paths []string
	for from := range r.folders {
		paths = append(paths, from)
	}
	sort.Strings(paths)
	for _, from := range paths {
		r.reduce(from)
	}
	r.write(folder)
}
