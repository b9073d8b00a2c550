package main

import (
	"fmt"
	"go/ast"
	"go/constant"
	"go/token"
	"go/types"
	"strconv"
	"strings"
)

// An ex is an expression that is made.
type ex struct {
	text string
	typ  types.Type
	val  constant.Value
	addr bool
	prec int // 7 stands alone, 6 is behind a unary operator, 5 to 1 are the ranks of binary operators
}

// in writes an expression where one of a rank may stand.
func (e ex) in(prec int) string {
	if e.prec < prec {
		return "(" + e.text + ")"
	}
	return e.text
}

// A local is a name of a function.
type local struct {
	name string
	typ  types.Type
	val  constant.Value
	kind byte // v(ariable), c(onstant)
}

// A scope is an open block of a function.
type scope struct {
	names  map[string]*local
	list   []*local
	parent *scope
}

// A gen makes the body of a function.
type gen struct {
	*made
	f      *fileMade
	sig    *types.Signature
	scope  *scope
	out    *strings.Builder
	indent int
	loops  int
	header int
	budget int
	slot   int
}

func (g *gen) open() { g.scope = &scope{names: map[string]*local{}, parent: g.scope} }

func (g *gen) close() { g.scope = g.scope.parent }

// local finds a name among the locals.
func (g *gen) local(name string) *local {
	for s := g.scope; s != nil; s = s.parent {
		if l := s.names[name]; l != nil {
			return l
		}
	}
	return nil
}

func (g *gen) declare(name string, typ types.Type, val constant.Value, kind byte) {
	if name == "_" || name == "" {
		return
	}
	l := &local{name, typ, val, kind}
	g.scope.names[name] = l
	g.scope.list = append(g.scope.list, l)
}

// universe tells whether a predeclared name means that here.
func (g *gen) universe(name string) bool {
	return g.local(name) == nil && g.top[name] == nil
}

// ref writes the name of a declaration outside functions, if it can be seen here.
func (g *gen) ref(e *entry) (string, bool) {
	if e.pkg == g.made {
		return e.name, g.local(e.name) == nil
	}
	qualifier, ok := g.f.quals[e.pkg]
	if !ok || !ast.IsExported(e.name) {
		return "", false
	}
	if qualifier == "." {
		return e.name, g.local(e.name) == nil
	}
	return qualifier + "." + e.name, g.local(qualifier) == nil
}

// aliasOf picks an alias of a type, as it is written here: one of those that can be seen.
func (g *gen) aliasOf(t types.Type) (string, bool) {
	var found []string
	for _, m := range append([]*made{g.made}, g.others...) {
		for _, e := range m.list {
			if e.kind == 't' && m.pkg.Scope().Lookup(e.name).(*types.TypeName).IsAlias() && types.Identical(e.typ, t) {
				if text, ok := g.ref(e); ok {
					found = append(found, text)
				}
			}
		}
	}
	if len(found) == 0 {
		return "", false
	}
	return found[g.r.Intn(len(found))], true
}

// typeText writes a type, if its names can be seen here: now and then by an alias.
func (g *gen) typeText(t types.Type) (string, bool) {
	text, ok := g.ownText(t)
	if !ok || g.chance(30) {
		if alias, isSeen := g.aliasOf(t); isSeen {
			return alias, true
		}
	}
	return text, ok
}

// ownText writes a type, the outermost by no alias, if its names can be seen here.
func (g *gen) ownText(t types.Type) (string, bool) {
	switch t := t.(type) {
	case *types.Basic:
		return t.Name(), g.universe(t.Name())
	case *types.Pointer:
		text, ok := g.typeText(t.Elem())
		return "*" + text, ok
	case *types.Named:
		if t.Obj().Pkg() == nil {
			return t.Obj().Name(), g.universe(t.Obj().Name())
		}
		for _, m := range append([]*made{g.made}, g.others...) {
			if m.pkg == t.Obj().Pkg() {
				return g.ref(m.top[t.Obj().Name()])
			}
		}
	case *types.Interface:
		return g.interfaceWritten(t)
	case *types.Struct:
		return g.structWritten(t)
	}
	return "", false
}

func (g *gen) interfaceWritten(t *types.Interface) (string, bool) {
	if t.NumMethods() == 0 {
		if g.universe("any") && g.chance(60) {
			return "any", true
		}
		return "interface{}", true
	}
	var lines []string
	for i := 0; i < t.NumMethods(); i++ {
		method := t.Method(i)
		sig := method.Type().(*types.Signature)
		params, ok := g.tupleText(sig.Params())
		results, fits := g.tupleText(sig.Results())
		if !ok || !fits || !g.mine(method) {
			return "", false
		}
		lines = append(lines, method.Name()+params+" "+results)
	}
	return "interface{ " + strings.Join(lines, "; ") + " }", true
}

func (g *gen) tupleText(tuple *types.Tuple) (string, bool) {
	var words []string
	for i := 0; i < tuple.Len(); i++ {
		text, ok := g.typeText(tuple.At(i).Type())
		if !ok {
			return "", false
		}
		words = append(words, text)
	}
	return "(" + strings.Join(words, ", ") + ")", true
}

// mine tells whether a member's name is the same where it is written here.
func (g *gen) mine(object types.Object) bool {
	return object.Exported() || object.Pkg() == g.pkg
}

func (g *gen) structWritten(t *types.Struct) (string, bool) {
	var lines []string
	for i := 0; i < t.NumFields(); i++ {
		field := t.Field(i)
		text, ok := g.fieldText(field)
		if !ok || !g.mine(field) {
			return "", false
		}
		if t.Tag(i) != "" {
			text += " " + strconv.Quote(t.Tag(i))
		}
		lines = append(lines, text)
	}
	return "struct{ " + strings.Join(lines, "; ") + " }", true
}

// fieldText writes a field, if its names can be seen here: an embedded one by the name that it has, which may be that of an alias of its type.
func (g *gen) fieldText(field *types.Var) (string, bool) {
	if !field.Embedded() {
		text, ok := g.typeText(field.Type())
		return field.Name() + " " + text, ok
	}
	base, star := field.Type(), ""
	if pointer, ok := base.(*types.Pointer); ok {
		base, star = pointer.Elem(), "*"
	}
	for _, m := range append([]*made{g.made}, g.others...) {
		if e := m.top[field.Name()]; e != nil && e.kind == 't' && types.Identical(e.typ, base) {
			if text, ok := g.ref(e); ok {
				return star + text, true
			}
		}
	}
	object := types.Universe.Lookup(field.Name())
	return star + field.Name(), object != nil && types.Identical(object.Type(), base) && g.universe(field.Name())
}

// vars gives the variables and typed constants that can be seen here, which fit.
func (g *gen) vars(fits func(types.Type) bool, isConst bool) []ex {
	var found []ex
	for s := g.scope; s != nil; s = s.parent {
		for _, l := range s.list {
			if g.local(l.name) == l && l.typ != nil && (l.kind == 'c' || !isConst) && fits(l.typ) {
				found = append(found, ex{l.name, l.typ, l.val, l.kind == 'v', 7})
			}
		}
	}
	for _, m := range append([]*made{g.made}, g.others...) {
		for _, e := range m.list {
			if (e.kind == 'c' || e.kind == 'v' && !isConst) && fits(e.typ) {
				if text, ok := g.ref(e); ok {
					found = append(found, ex{text, e.typ, e.val, e.kind == 'v', 7})
				}
			}
		}
	}
	return found
}

func (g *gen) pick(found []ex) (ex, bool) {
	if len(found) == 0 {
		return ex{}, false
	}
	return found[g.r.Intn(len(found))], true
}

func same(t types.Type) func(types.Type) bool {
	return func(other types.Type) bool { return types.Identical(t, other) }
}

// isUntyped tells whether a type is that of untyped constants.
func isUntyped(t types.Type) bool {
	b, ok := t.(*types.Basic)
	return ok && b.Info()&types.IsUntyped != 0
}

func isTyped(t types.Type) bool { return !isUntyped(t) }

// basicOf is the kind of a type's values: i(nt), s(tring), b(ool) or nothing.
func basicOf(t types.Type) byte {
	if b, ok := t.Underlying().(*types.Basic); ok {
		switch {
		case b.Info()&types.IsInteger != 0:
			return 'i'
		case b.Info()&types.IsString != 0:
			return 's'
		case b.Info()&types.IsBoolean != 0:
			return 'b'
		}
	}
	return 0
}

func untypedOf(kind byte) types.Type {
	switch kind {
	case 'i':
		return types.Typ[types.UntypedInt]
	case 's':
		return types.Typ[types.UntypedString]
	}
	return types.Typ[types.UntypedBool]
}

// literal makes a literal.
func (g *gen) literal(kind byte) (ex, bool) {
	switch kind {
	case 'i':
		n := int64(g.r.Intn(12))
		text := strconv.FormatInt(n, 10)
		switch g.r.Intn(14) {
		case 0:
			text = fmt.Sprintf("0x%x", n)
		case 1:
			text = fmt.Sprintf("0b%b", n)
		case 2:
			text = fmt.Sprintf("0o%o", n)
		case 3:
			n = 1000 + int64(g.r.Intn(9000))
			text = fmt.Sprintf("1_%03d", n%1000)
			n = 1000 + n%1000
		case 4:
			if g.chance(10) {
				n, text = 9223372036854775807, "9223372036854775807"
			}
		}
		return ex{text, untypedOf('i'), constant.MakeInt64(n), false, 7}, true
	case 's':
		text := g.one("", "a", "go", "xyz", "é", "tab\t", "a\"b", "\xff")
		written := strconv.Quote(text)
		if g.chance(20) && strconv.CanBackquote(text) {
			written = "`" + text + "`"
		}
		return ex{written, untypedOf('s'), constant.MakeString(text), false, 7}, true
	}
	name := g.one("true", "false")
	return ex{name, untypedOf('b'), constant.MakeBool(name == "true"), false, 7}, g.universe(name)
}

// constant makes a constant expression of a type, or an untyped one where the type is untyped.
func (g *gen) constant(t types.Type, d int) (ex, bool) {
	kind := basicOf(t)
	if kind == 0 {
		return ex{}, false
	}
	for try := 0; try < 8; try++ {
		e, ok := g.constantOnce(t, kind, d)
		if ok {
			return e, true
		}
	}
	if isUntyped(t) {
		return g.literal(kind)
	}
	return ex{}, false
}

func (g *gen) constantOnce(t types.Type, kind byte, d int) (ex, bool) {
	switch n := g.r.Intn(14); {
	case n < 4:
		return g.pick(g.vars(same(t), true))
	case n < 6 && isUntyped(t):
		return g.literal(kind)
	case n < 6:
		return g.constantConversion(t, kind, d)
	case n < 10 && d > 0:
		a, ok := g.constant(t, d-1)
		b, fits := g.constant(t, d-1)
		if g.chance(30) && isTyped(t) {
			b, fits = g.constant(untypedOf(kind), d-1)
			if g.chance(50) {
				a, b = b, a
			}
		}
		if !ok || !fits {
			return ex{}, false
		}
		return g.binary(a, b, t, kind)
	case n == 10 && d > 0:
		return g.unary(t, kind, d, true)
	case n == 11 && d > 0 && kind == 'b' && isUntyped(t):
		return g.comparison(d, true)
	case n == 12 && types.Identical(t, types.Typ[types.Int]) && g.universe("len"):
		s, ok := g.constant(g.anyOf('s'), d-1)
		if ok {
			return ex{"len(" + s.text + ")", t, constant.MakeInt64(int64(len(constant.StringVal(s.val)))), false, 7}, true
		}
	case n == 13 && d > 0:
		e, ok := g.constant(t, d-1)
		e.text, e.prec = "("+e.text+")", 7
		return e, ok
	}
	return ex{}, false
}

// anyOf picks a type of a kind, typed or untyped.
func (g *gen) anyOf(kind byte) types.Type {
	if g.chance(40) {
		return untypedOf(kind)
	}
	return g.typedOf(kind)
}

func (g *gen) typedOf(kind byte) types.Type {
	var found []types.Type
	for _, t := range g.known {
		if basicOf(t) == kind {
			found = append(found, t)
		}
	}
	return found[g.r.Intn(len(found))]
}

func (g *gen) constantConversion(t types.Type, kind byte, d int) (ex, bool) {
	text, ok := g.typeText(t)
	from, fits := g.constant(g.anyOf(kind), d-1)
	if !ok || !fits {
		return ex{}, false
	}
	return ex{text + "(" + from.text + ")", t, from.val, false, 7}, true
}

var binaryOps = map[byte][]token.Token{
	'i': {token.ADD, token.SUB, token.MUL, token.QUO, token.REM}, 's': {token.ADD}, 'b': {token.LAND, token.LOR},
}

// fits64 tells whether a constant lies in 64 bits.
func fits64(value constant.Value) bool {
	if value.Kind() != constant.Int {
		return true
	}
	_, exact := constant.Int64Val(value)
	return exact
}

// binary joins two operands.
func (g *gen) binary(a, b ex, t types.Type, kind byte) (ex, bool) {
	op := binaryOps[kind][g.r.Intn(len(binaryOps[kind]))]
	result := ex{typ: t, prec: op.Precedence()}
	if (op == token.QUO || op == token.REM) && b.val != nil && constant.Sign(b.val) == 0 {
		return ex{}, false
	}
	if a.val != nil && b.val != nil {
		folded := op
		if op == token.QUO {
			folded = token.QUO_ASSIGN
		}
		result.val = constant.BinaryOp(a.val, folded, b.val)
		if !fits64(result.val) {
			return ex{}, false
		}
	} else if (a.val != nil && !fits64(a.val)) || (b.val != nil && !fits64(b.val)) {
		return ex{}, false
	}
	result.text = a.in(result.prec) + g.one(" ", " ", " ") + op.String() + " " + b.in(result.prec+1)
	return result, true
}

func (g *gen) unary(t types.Type, kind byte, d int, isConst bool) (ex, bool) {
	op := map[byte]token.Token{'i': token.SUB, 'b': token.NOT}[kind]
	if kind == 'i' && g.chance(30) {
		op = token.ADD
	}
	if kind == 's' || kind == 0 {
		return ex{}, false
	}
	var e ex
	var ok bool
	if isConst {
		e, ok = g.constant(t, d-1)
	} else {
		e, ok = g.value(t, d-1)
	}
	if !ok {
		return ex{}, false
	}
	result := ex{text: op.String() + e.in(6), typ: t, prec: 6}
	if e.prec == 6 {
		result.text = op.String() + "(" + e.text + ")"
	}
	if e.val != nil {
		result.val = constant.UnaryOp(op, e.val, 0)
		if !fits64(result.val) {
			return ex{}, false
		}
	}
	return result, true
}

// comparison makes an untyped boolean.
func (g *gen) comparison(d int, isConst bool) (ex, bool) {
	kind := g.one("i", "s", "b", "i")[0]
	t := g.typedOf(kind)
	operand := g.value
	if isConst {
		operand = g.constant
	} else if g.chance(25) {
		return g.equality(d)
	}
	a, ok := operand(t, d-1)
	b, fits := operand(t, d-1)
	if g.chance(40) {
		b, fits = g.constant(untypedOf(kind), d-1)
	}
	if !ok || !fits {
		return ex{}, false
	}
	ops := []token.Token{token.EQL, token.NEQ, token.LSS, token.LEQ, token.GTR, token.GEQ}
	op := ops[g.r.Intn(len(ops))]
	if kind == 'b' {
		op = ops[g.r.Intn(2)]
	}
	result := ex{text: a.in(3) + " " + op.String() + " " + b.in(4), typ: untypedOf('b'), prec: 3}
	if a.val != nil && b.val != nil {
		result.val = constant.MakeBool(constant.Compare(a.val, op, b.val))
	}
	return result, true
}

// equality compares values of any types.
func (g *gen) equality(d int) (ex, bool) {
	t := g.known[g.r.Intn(len(g.known))]
	a, ok := g.value(t, d-1)
	b, fits := g.assignable(t, d-1)
	if !ok || !fits || b.typ == nil && basicOf(t) != 0 || a.val != nil && b.val != nil {
		return ex{}, false
	}
	if g.chance(50) && b.typ != nil {
		a, b = b, a
	}
	return ex{text: a.in(3) + " " + g.one("==", "!=") + " " + b.in(4), typ: untypedOf('b'), prec: 3}, true
}

// value makes an expression of exactly a type.
func (g *gen) value(t types.Type, d int) (ex, bool) {
	for try := 0; try < 7; try++ {
		if e, ok := g.valueOnce(t, d); ok {
			return e, true
		}
	}
	return g.plain(t)
}

func (g *gen) valueOnce(t types.Type, d int) (ex, bool) {
	kind := basicOf(t)
	n := g.r.Intn(22)
	if d <= 0 {
		n = g.r.Intn(4)
	}
	switch {
	case n < 4:
		return g.pick(g.vars(same(t), false))
	case n < 9:
		return g.throughMember(t, d)
	case n < 11:
		return g.callOf(t, d)
	case n == 11:
		return g.conversion(t, d)
	case n < 14 && kind != 0:
		return g.operator(t, kind, d)
	case n < 14:
		return g.composite(t, d)
	case n == 14 && kind != 0:
		return g.unary(t, kind, d, false)
	case n == 15 && kind != 0:
		return g.constant(t, d-1)
	case n == 16:
		e, ok := g.value(types.NewPointer(t), d-1)
		return ex{text: "*" + e.in(6), typ: t, addr: true, prec: 6}, ok
	case n == 17:
		e, ok := g.value(t, d-1)
		e.text, e.prec = "("+e.text+")", 7
		return e, ok
	case n == 18 && types.Identical(t, types.Typ[types.Int]) && g.universe("len"):
		s, ok := g.assignable(g.typedOf('s'), d-1)
		if ok && s.val == nil {
			return ex{text: "len(" + s.text + ")", typ: t, prec: 7}, true
		}
	case n < 22:
		if _, isPointer := t.(*types.Pointer); isPointer {
			return g.address(t, d)
		}
	}
	return ex{}, false
}

// address makes a pointer.
func (g *gen) address(t types.Type, d int) (ex, bool) {
	elem := t.(*types.Pointer).Elem()
	if g.chance(50) {
		e, ok := g.composite(elem, d-1)
		return ex{text: "&" + e.text, typ: t, prec: 6}, ok
	}
	e, ok := g.value(elem, d-1)
	return ex{text: "&" + e.in(6), typ: t, prec: 6}, ok && e.addr
}

// operator joins two operands of a type, of which one may be untyped.
func (g *gen) operator(t types.Type, kind byte, d int) (ex, bool) {
	a, ok := g.value(t, d-1)
	b, fits := g.value(t, d-1)
	if kind == 'b' && g.chance(40) {
		b, fits = g.comparison(d-1, false)
	} else if g.chance(40) {
		b, fits = g.constant(untypedOf(kind), d-2)
	}
	if !ok || !fits {
		return ex{}, false
	}
	if g.chance(20) {
		a, b = b, a
	}
	return g.binary(a, b, t, kind)
}

// base makes an operand behind which a selector may stand.
func (g *gen) base(d int) (ex, bool) {
	switch g.r.Intn(8) {
	case 0:
		return g.callOf(g.known[g.r.Intn(len(g.known))], d-1)
	case 1:
		return g.composite(g.known[g.r.Intn(len(g.known))], d-1)
	case 2:
		if e, ok := g.pick(g.vars(isTyped, false)); ok && d > 0 {
			return g.selectMember(e, d-1, func(t types.Type) bool { return basicOf(t) == 0 })
		}
	}
	return g.pick(g.vars(func(t types.Type) bool { return isTyped(t) }, false))
}

// throughMember makes a value by a field or a method behind an operand.
func (g *gen) throughMember(t types.Type, d int) (ex, bool) {
	for try := 0; try < 4; try++ {
		if e, ok := g.base(d - 1); ok && e.typ != nil && isTyped(e.typ) {
			if found, ok := g.selectMember(e, d, same(t)); ok {
				return found, true
			}
		}
	}
	return ex{}, false
}

// A behind is a name behind an operand of a type.
type behind struct {
	typ  types.Type
	addr bool
	name string
}

// A member is what stands behind an operand, and whether the way to it passes a pointer.
type member struct {
	object   types.Object
	indirect bool
}

// lookUp finds what a name denotes behind an operand, once.
func (m *made) lookUp(one behind) member {
	found, ok := m.members[one]
	if !ok {
		found.object, _, found.indirect = types.LookupFieldOrMethod(one.typ, one.addr, m.pkg, one.name)
		m.members[one] = found
	}
	return found
}

// selectMember chooses a field, or calls a method with one result, behind an operand.
func (g *gen) selectMember(e ex, d int, fits func(types.Type) bool) (ex, bool) {
	for _, name := range g.some(g.member, len(g.member)) {
		found := g.lookUp(behind{e.typ, e.addr, name})
		switch object := found.object.(type) {
		case *types.Var:
			if fits(object.Type()) && name != "_" {
				return ex{text: e.in(7) + "." + name, typ: object.Type(), addr: e.addr || found.indirect, prec: 7}, true
			}
		case *types.Func:
			results := object.Type().(*types.Signature).Results()
			if results.Len() == 1 && fits(results.At(0).Type()) && d > 0 {
				text, ok := g.call(e.in(7)+"."+name, object.Type().(*types.Signature), d-1)
				return ex{text: text, typ: results.At(0).Type(), prec: 7}, ok
			}
		}
	}
	return ex{}, false
}

// call writes a call.
func (g *gen) call(callee string, sig *types.Signature, d int) (string, bool) {
	if g.chance(5) {
		callee = "(" + callee + ")"
	}
	if sig.Params().Len() > 1 && g.chance(20) {
		if text, ok := g.forwarded(sig.Params(), d); ok {
			return callee + "(" + text + ")", true
		}
	}
	var words []string
	for i := 0; i < sig.Params().Len(); i++ {
		e, ok := g.inside(func() (ex, bool) { return g.assignable(sig.Params().At(i).Type(), d-1) })
		if !ok {
			return "", false
		}
		words = append(words, e.text)
	}
	text := strings.Join(words, ", ")
	if text != "" && g.chance(4) {
		text += ","
	}
	return callee + "(" + text + ")", true
}

// inside makes something between parentheses or braces, where a header does not matter.
func (g *gen) inside(make func() (ex, bool)) (ex, bool) {
	header := g.header
	g.header = 0
	e, ok := make()
	g.header = header
	return e, ok
}

// forwarded makes a call whose results are given on.
func (g *gen) forwarded(params *types.Tuple, d int) (string, bool) {
	for _, at := range g.r.Perm(len(g.list)) {
		e := g.list[at]
		sig, isFunc := e.typ.(*types.Signature)
		if !isFunc || e.kind != 'f' || sig.Results().Len() != params.Len() {
			continue
		}
		fits := true
		for i := 0; i < params.Len(); i++ {
			fits = fits && types.AssignableTo(sig.Results().At(i).Type(), params.At(i).Type())
		}
		if name, ok := g.ref(e); ok && fits && d > 0 {
			return g.call(name, sig, d-1)
		}
	}
	return "", false
}

// callOf makes a call of a function with one result of a type.
func (g *gen) callOf(t types.Type, d int) (ex, bool) {
	for _, m := range append([]*made{g.made}, g.others...) {
		for _, at := range g.r.Perm(len(m.list)) {
			e := m.list[at]
			if e.kind != 'f' {
				continue
			}
			sig := e.typ.(*types.Signature)
			if sig.Results().Len() == 1 && types.Identical(sig.Results().At(0).Type(), t) && d > 0 {
				if name, ok := g.ref(e); ok {
					text, ok := g.call(name, sig, d-1)
					return ex{text: text, typ: t, prec: 7}, ok
				}
			}
		}
	}
	return ex{}, false
}

// composite makes a literal.
func (g *gen) composite(t types.Type, d int) (ex, bool) {
	fields, ok := t.Underlying().(*types.Struct)
	if !ok || d < -2 {
		return ex{}, false
	}
	name, ok := g.typeText(t)
	if !ok {
		return ex{}, false
	}
	e, ok := g.inside(func() (ex, bool) { return g.elements(fields, d) })
	if !ok {
		return ex{}, false
	}
	text := name + "{" + e.text + "}"
	if g.header > 0 {
		text = "(" + text + ")"
	}
	return ex{text: text, typ: t, prec: 7}, true
}

// elements makes those of a literal: none, all fields, or some with keys.
func (g *gen) elements(fields *types.Struct, d int) (ex, bool) {
	var words []string
	form := g.r.Intn(3)
	for i := 0; i < fields.NumFields() && form < 2; i++ {
		field := fields.Field(i)
		if form == 1 && (field.Name() == "_" || !g.mine(field) || g.chance(30)) {
			continue
		}
		if !g.mine(field) || d <= 0 && form == 0 {
			return ex{}, form == 0 && len(words) == 0
		}
		e, ok := g.assignable(field.Type(), d-1)
		if !ok {
			return ex{}, false
		}
		if form == 1 {
			e.text = field.Name() + ": " + e.text
		}
		words = append(words, e.text)
	}
	if form == 1 {
		g.r.Shuffle(len(words), func(a, b int) { words[a], words[b] = words[b], words[a] })
	}
	return ex{text: strings.Join(words, ", ")}, true
}

// callee writes a type where it is called: a name, or a name behind stars in parentheses.
func callee(text string) (string, bool) {
	name := strings.TrimLeft(text, "*")
	if strings.HasPrefix(name, "struct{") || strings.HasPrefix(name, "interface{") {
		return "", false
	}
	if name != text {
		text = "(" + text + ")"
	}
	return text, true
}

// conversion makes one to a type.
func (g *gen) conversion(t types.Type, d int) (ex, bool) {
	text, ok := g.typeText(t)
	if !ok {
		return ex{}, false
	}
	text, ok = callee(text)
	if !ok {
		return ex{}, false
	}
	for try := 0; try < 5; try++ {
		from := g.known[g.r.Intn(len(g.known))]
		if !types.ConvertibleTo(from, t) || basicOf(from) != basicOf(t) {
			continue
		}
		e, ok := g.inside(func() (ex, bool) { return g.value(from, d-1) })
		if !ok {
			continue
		}
		result := ex{text: text + "(" + e.text + ")", typ: t, prec: 7}
		if basicOf(t) != 0 {
			result.val = e.val
		}
		return result, true
	}
	return ex{}, false
}

// plain makes the simplest value of a type.
func (g *gen) plain(t types.Type) (ex, bool) {
	text, ok := g.typeText(t)
	if !ok {
		return g.pick(g.vars(same(t), false))
	}
	switch t.Underlying().(type) {
	case *types.Basic:
		e, ok := g.literal(basicOf(t))
		return ex{text + "(" + e.text + ")", t, e.val, false, 7}, ok
	case *types.Struct:
		return g.composite(t, -2)
	}
	text, ok = callee(text)
	if !ok {
		return g.pick(g.vars(same(t), false))
	}
	return ex{text: text + "(nil)", typ: t, prec: 7}, g.universe("nil")
}

// assignable makes an expression that may be given to a type. Its type is nil for nil.
func (g *gen) assignable(t types.Type, d int) (ex, bool) {
	kind := basicOf(t)
	switch n := g.r.Intn(10); {
	case n < 3 && kind != 0:
		return g.constant(untypedOf(kind), d-1)
	case n == 3 && kind == 'b' && d > 0:
		if e, ok := g.comparison(d-1, false); ok {
			return e, true
		}
	case n < 2 && kind == 0 && g.universe("nil"):
		switch t.Underlying().(type) {
		case *types.Pointer, *types.Interface:
			return ex{text: "nil", prec: 7}, true
		}
	case n < 6 && types.IsInterface(t):
		if g.chance(20) && t.Underlying().(*types.Interface).NumMethods() == 0 {
			return g.constant(untypedOf(g.one("i", "s", "b")[0]), d-1)
		}
		for try := 0; try < 6; try++ {
			from := g.known[g.r.Intn(len(g.known))]
			if types.AssignableTo(from, t) {
				return g.value(from, d-1)
			}
		}
	case n == 6:
		from := g.known[g.r.Intn(len(g.known))]
		if types.AssignableTo(from, t) {
			return g.value(from, d-1)
		}
	case n == 7 && kind == 0:
		if under := t.Underlying(); under != t && types.AssignableTo(under, t) && !types.IsInterface(t) {
			return g.value(under, d-1)
		}
	}
	return g.value(t, d)
}
