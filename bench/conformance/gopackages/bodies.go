package main

import (
	"fmt"
	"go/types"
	"strings"
)

// outside is a gen for what stands outside functions.
func (m *made) outside(f *fileMade) *gen {
	return &gen{made: m, f: f, out: &strings.Builder{}}
}

// declareValues makes the constants and variables outside functions.
func (m *made) declareValues() {
	var pieces []string
	var places []*fileMade
	for _, name := range m.some(m.names.consts, 3+m.r.Intn(4)) {
		f := m.file()
		if spec, ok := m.constSpec(f, name); ok {
			pieces = append(pieces, "const "+spec)
			places = append(places, f)
		}
	}
	for _, name := range m.some(m.names.vars, 2+m.r.Intn(4)) {
		f := m.file()
		if spec, ok := m.varSpec(f, name); ok {
			pieces = append(pieces, "var "+spec)
			places = append(places, f)
		}
	}
	if m.chance(20) {
		f := m.file()
		pieces = append(pieces, m.one("const _ = 1", "var _ = 2", "var _ int", "const _, _ = 1, `a`"))
		places = append(places, f)
	}
	for _, at := range m.r.Perm(len(pieces)) {
		m.addSpec(places[at], pieces[at])
	}
}

// addSpec puts a specification into a file, before or behind what is there, some into groups.
func (m *made) addSpec(f *fileMade, text string) {
	if m.chance(30) {
		cut := strings.Index(text, " ")
		word, spec := text[:cut], text[cut+1:]
		if len(f.pieces) > 0 && strings.HasPrefix(f.pieces[len(f.pieces)-1], word+" (") {
			last := &f.pieces[len(f.pieces)-1]
			*last = strings.TrimSuffix(*last, ")\n") + "\t" + spec + "\n)\n"
			return
		}
		text = word + " (\n\t" + spec + "\n)"
	}
	f.pieces = append(f.pieces, text+"\n")
}

// constSpec makes a specification of a constant, or of two.
func (m *made) constSpec(f *fileMade, name string) (string, bool) {
	g := m.outside(f)
	t := g.anyOf(m.one("i", "s", "b", "i")[0])
	e, ok := g.constant(t, 3)
	if !ok {
		return "", false
	}
	written, kept := "", e.typ
	if text, fits := g.typeText(t); fits && isTyped(t) && m.chance(40) {
		written = " " + text
		if m.chance(50) {
			if other, ok := g.constant(untypedOf(basicOf(t)), 2); ok {
				e = other
			}
		}
		kept = t
	}
	spec := name + written + " = " + e.text
	second := "_"
	if m.chance(50) {
		second = name + "2"
	}
	if other, ok := g.constant(t, 2); ok && m.chance(20) && (written == "" || isTyped(t)) {
		spec = name + ", " + second + written + " = " + e.text + ", " + other.text
		if second != "_" {
			defer m.addEntry(&entry{name: second, kind: 'c', typ: kindOf(kept, other), val: other.val})
		}
	}
	m.addEntry(&entry{name: name, kind: 'c', typ: kept, val: e.val})
	return spec, true
}

func kindOf(kept types.Type, e ex) types.Type {
	if isTyped(kept) {
		return kept
	}
	return e.typ
}

// varSpec makes a specification of a variable, or of several.
func (m *made) varSpec(f *fileMade, name string) (string, bool) {
	g := m.outside(f)
	if m.chance(45) {
		t := m.known[m.r.Intn(len(m.known))]
		text, ok := g.typeText(t)
		names := name
		if m.chance(20) {
			names += ", " + name + "2"
			m.addEntryIf(ok, &entry{name: name + "2", kind: 'v', typ: t})
		}
		m.addEntryIf(ok, &entry{name: name, kind: 'v', typ: t})
		return names + " " + text, ok
	}
	t := g.anyOf(m.one("i", "s", "b")[0])
	e, ok := g.constant(t, 2)
	if !ok {
		return "", false
	}
	spec, kept := name+" = "+e.text, types.Default(e.typ)
	if text, fits := g.typeText(t); fits && isTyped(t) && m.chance(50) {
		spec, kept = name+" "+text+" = "+e.text, t
	} else if m.chance(10) {
		kept = types.Universe.Lookup("any").Type()
		text, fits := g.typeText(kept)
		if !fits {
			return "", false
		}
		spec = name + " " + text + " = " + e.text
	} else if m.chance(20) {
		spec = name + ", _ = " + e.text + ", 1"
	}
	m.addEntry(&entry{name: name, kind: 'v', typ: kept})
	return spec, true
}

func (m *made) addEntryIf(ok bool, e *entry) {
	if ok {
		m.addEntry(e)
	}
}

// fill makes the bodies of all functions, and puts a mistake into one of them if it is one of statements.
func (m *made) fill() {
	slots := -1
	chosen := -1
	if m.wrong != nil && m.wrong.stmt != "" {
		chosen = m.r.Intn(len(m.funcs))
		slots = m.r.Intn(8)
	}
	for at, fn := range m.funcs {
		slot := -1
		if at == chosen {
			slot = slots
		}
		fn.file.pieces[fn.piece] = m.body(fn, slot)
	}
	if m.wrong != nil {
		m.wrong.finish(m)
	}
}

// body makes a function with its body.
func (m *made) body(fn *funcMade, slot int) string {
	sig := fn.object.Type().(*types.Signature)
	g := &gen{made: m, f: fn.file, sig: sig, out: &strings.Builder{}, budget: 3 + m.r.Intn(14), slot: slot, indent: 1}
	g.open()
	if sig.Recv() != nil {
		g.declare(sig.Recv().Name(), sig.Recv().Type(), nil, 'v')
	}
	for _, tuple := range []*types.Tuple{sig.Params(), sig.Results()} {
		for i := 0; i < tuple.Len(); i++ {
			g.declare(tuple.At(i).Name(), tuple.At(i).Type(), nil, 'v')
		}
	}
	g.stmts(4)
	if g.slot >= 0 {
		g.mistake()
	}
	if sig.Results().Len() > 0 {
		g.ending(2)
	}
	return fn.header + " {\n" + g.out.String() + "}\n"
}

func (g *gen) line(text string) {
	g.out.WriteString(strings.Repeat("\t", g.indent) + text + "\n")
}

// stmts makes statements of a block.
func (g *gen) stmts(depth int) {
	for n := 1 + g.r.Intn(6); n > 0 && g.budget > 0; n-- {
		g.budget--
		if g.slot == 0 {
			g.mistake()
		}
		if g.slot > 0 {
			g.slot--
		}
		for try := 0; try < 5; try++ {
			if g.stmt(depth) {
				break
			}
		}
	}
}

// mistake writes the wrong statement, where the names in it can be seen.
func (g *gen) mistake() {
	if g.placed || g.slot < 0 {
		return
	}
	text, ok := g.wrong.write(g)
	if !ok {
		return
	}
	g.slot, g.placed = -1, true
	for _, line := range strings.Split(text, "\n") {
		g.line(line)
	}
}

// ending makes a terminating statement.
func (g *gen) ending(depth int) {
	switch n := g.r.Intn(10); {
	case n < 6 && g.returned():
		return
	case n == 6 && depth > 0:
		var e ex
		var ok bool
		g.inHeader(func() { e, ok = g.condition() })
		if ok {
			g.line("if " + e.text + " {")
			g.nested(func() { g.stmts(1); g.ending(depth - 1) })
			g.line("} else {")
			g.nested(func() { g.ending(depth - 1) })
			g.line("}")
			return
		}
	case n == 7 && depth > 0:
		g.line("{")
		g.nested(func() { g.stmts(1); g.ending(depth - 1) })
		g.line("}")
		return
	case n == 8:
		g.line("for {")
		loops := g.loops
		g.loops = 0
		g.nested(func() { g.stmts(1) })
		g.loops = loops
		g.line("}")
		return
	}
	if g.universe("panic") {
		g.line("panic(\"end\")")
		return
	}
	g.line("for {\n\t}")
}

func (g *gen) nested(make func()) {
	g.indent++
	g.open()
	make()
	g.close()
	g.indent--
}

// returned makes a return with values, or without where the results have names.
func (g *gen) returned() bool {
	results := g.sig.Results()
	if results.Len() == 0 || results.At(0).Name() != "" && g.chance(40) {
		for i := 0; i < results.Len(); i++ {
			// where a local of the name of a result is in scope, go/types refuses an empty return
			name := results.At(i).Name()
			if l := g.local(name); name != "_" && name != "" && !g.isOuter(l) {
				return false
			}
		}
		g.line("return")
		return true
	}
	if results.Len() > 1 && g.chance(30) {
		if text, ok := g.forwarded(results, 2); ok {
			g.line("return " + text)
			return true
		}
	}
	var words []string
	for i := 0; i < results.Len(); i++ {
		e, ok := g.assignable(results.At(i).Type(), 3)
		if !ok {
			return false
		}
		words = append(words, e.text)
	}
	g.line("return " + strings.Join(words, ", "))
	return true
}

// isOuter tells whether a local is of the function's own block.
func (g *gen) isOuter(l *local) bool {
	s := g.scope
	for s.parent != nil {
		s = s.parent
	}
	return l != nil && s.names[l.name] == l
}

func (g *gen) condition() (ex, bool) {
	if g.chance(60) {
		return g.comparison(2, false)
	}
	return g.value(g.typedOf('b'), 2)
}

func (g *gen) stmt(depth int) bool {
	switch n := g.r.Intn(30); {
	case n < 4:
		return g.varStmt()
	case n < 6:
		return g.constStmt()
	case n < 11:
		return g.shortStmt()
	case n < 16:
		text, ok := g.simple(false)
		if ok {
			g.line(text)
		}
		return ok
	case n < 19:
		return g.callStmt()
	case n < 23 && depth > 0:
		return g.ifStmt(depth, "")
	case n < 26 && depth > 0:
		return g.forStmt(depth)
	case n == 26 && depth > 0:
		g.line("{")
		g.nested(func() { g.stmts(depth - 1) })
		g.line("}")
		return true
	case n == 27 && g.chance(40):
		return g.returned()
	case n == 28 && g.loops > 0:
		g.line(g.one("break", "continue"))
		return true
	case n == 29 && g.chance(30):
		g.line(";")
		return true
	}
	return false
}

// fresh picks a name that the block has not.
func (g *gen) fresh() string {
	for {
		name := g.one(localNames...)
		if g.chance(3) {
			name = g.one(predeclared...)
		}
		if g.scope.names[name] == nil {
			return name
		}
		if g.chance(10) {
			return "_"
		}
	}
}

func (g *gen) varStmt() bool {
	name := g.fresh()
	if g.chance(60) {
		t := g.known[g.r.Intn(len(g.known))]
		text, ok := g.typeText(t)
		if !ok {
			return false
		}
		line, names := "var "+name, []string{name}
		if other := g.fresh(); g.chance(15) && other != name {
			line += ", " + other
			names = append(names, other)
		}
		line += " " + text
		if g.chance(50) && len(names) == 1 {
			e, ok := g.assignable(t, 3)
			if !ok {
				return false
			}
			line += " = " + e.text
		}
		g.line(line)
		for _, n := range names {
			g.declare(n, t, nil, 'v')
		}
		return true
	}
	e, ok := g.anyValue()
	if !ok {
		return false
	}
	if second, ok := g.anyValue(); ok && g.chance(20) {
		g.line(fmt.Sprintf("var (\n%s\t%s, _ = %s, %s\n%s)", strings.Repeat("\t", g.indent), name, e.text, second.text, strings.Repeat("\t", g.indent)))
	} else {
		g.line("var " + name + " = " + e.text)
	}
	g.declare(name, types.Default(e.typ), nil, 'v')
	return true
}

// anyValue makes a value of any type, or an untyped one that has a default type.
func (g *gen) anyValue() (ex, bool) {
	if g.chance(20) {
		return g.constant(g.anyOf(g.one("i", "s", "b")[0]), 2)
	}
	if g.chance(10) {
		return g.comparison(2, false)
	}
	return g.value(g.known[g.r.Intn(len(g.known))], 3)
}

func (g *gen) constStmt() bool {
	name := g.fresh()
	t := g.anyOf(g.one("i", "s", "b", "i")[0])
	e, ok := g.constant(t, 3)
	if !ok {
		return false
	}
	written := ""
	if text, fits := g.typeText(t); fits && isTyped(t) && g.chance(40) {
		written = " " + text
	}
	g.line("const " + name + written + " = " + e.text)
	g.declare(name, e.typ, e.val, 'c')
	return true
}

// shortStmt makes a short declaration of one name or of several.
func (g *gen) shortStmt() bool {
	text, names, kinds, ok := g.short()
	if !ok {
		return false
	}
	g.line(text)
	g.declareAll(names, kinds)
	return true
}

func (g *gen) declareAll(names []string, kinds []types.Type) {
	for i, name := range names {
		if g.scope.names[name] == nil {
			g.declare(name, kinds[i], nil, 'v')
		}
	}
}

// short makes one with the names and their types.
func (g *gen) short() (string, []string, []types.Type, bool) {
	var names []string
	var kinds []types.Type
	if g.chance(15) {
		return g.shortCall()
	}
	var words []string
	isNew := false
	for n := 1 + g.r.Intn(5)/3; n > 0; n-- {
		name := g.one(localNames...)
		if g.chance(10) {
			name = "_"
		}
		for _, other := range names {
			if other == name && name != "_" {
				return "", nil, nil, false
			}
		}
		old := g.scope.names[name]
		var e ex
		var ok bool
		if old != nil {
			if old.kind == 'c' || old.typ == nil {
				return "", nil, nil, false
			}
			e, ok = g.assignable(old.typ, 2)
		} else {
			isNew = isNew || name != "_"
			e, ok = g.anyValue()
		}
		if !ok {
			return "", nil, nil, false
		}
		names = append(names, name)
		words = append(words, e.text)
		if e.typ != nil {
			kinds = append(kinds, types.Default(e.typ))
		} else {
			kinds = append(kinds, nil)
		}
	}
	return strings.Join(names, ", ") + " := " + strings.Join(words, ", "), names, kinds, isNew
}

// shortCall declares names for the results of a call.
func (g *gen) shortCall() (string, []string, []types.Type, bool) {
	for _, at := range g.r.Perm(len(g.list)) {
		e := g.list[at]
		sig, isFunc := e.typ.(*types.Signature)
		if e.kind != 'f' || !isFunc || sig.Results().Len() < 2 {
			continue
		}
		var names []string
		var kinds []types.Type
		isNew := false
		for i, name := range g.some(localNames, sig.Results().Len()) {
			t := sig.Results().At(i).Type()
			if old := g.scope.names[name]; old != nil && (old.kind == 'c' || !types.AssignableTo(t, old.typ)) {
				return "", nil, nil, false
			} else if old == nil {
				isNew = true
			}
			names = append(names, name)
			kinds = append(kinds, t)
		}
		callee, ok := g.ref(e)
		if !ok {
			continue
		}
		text, ok := g.call(callee, sig, 2)
		return strings.Join(names, ", ") + " := " + text, names, kinds, ok && isNew
	}
	return "", nil, nil, false
}

// target makes what stands left of `=`.
func (g *gen) target(t types.Type) (ex, bool) {
	switch g.r.Intn(4) {
	case 0:
		if e, ok := g.throughMember(t, 2); ok && e.addr {
			return e, true
		}
	case 1:
		if e, ok := g.value(types.NewPointer(t), 1); ok {
			return ex{text: "*" + e.in(6), typ: t, addr: true, prec: 6}, true
		}
	}
	e, ok := g.pick(g.vars(same(t), false))
	return e, ok && e.addr
}

// simple makes an assignment, an operator with `=`, `++` or `--`, or where it may a short declaration.
func (g *gen) simple(isHeader bool) (string, bool) {
	switch n := g.r.Intn(10); {
	case n < 5:
		return g.assignment()
	case n < 7:
		t := g.typedOf('i')
		e, ok := g.target(t)
		return e.text + g.one("++", "--"), ok && e.prec == 7
	}
	kind := g.one("i", "s", "i")[0]
	t := g.typedOf(kind)
	left, ok := g.target(t)
	right, fits := g.value(t, 2)
	if g.chance(50) {
		right, fits = g.constant(untypedOf(kind), 1)
	}
	op := g.one("+=", "-=", "*=", "+=")
	if kind == 's' {
		op = "+="
	}
	return left.text + " " + op + " " + right.text, ok && fits
}

func (g *gen) assignment() (string, bool) {
	var lefts, rights []string
	for n := 1 + g.r.Intn(5)/4; n > 0; n-- {
		t := g.known[g.r.Intn(len(g.known))]
		if g.chance(10) {
			e, ok := g.anyValue()
			if !ok {
				return "", false
			}
			lefts, rights = append(lefts, g.one("_", "_", "(_)")), append(rights, e.text)
			continue
		}
		left, ok := g.target(t)
		right, fits := g.assignable(t, 3)
		if !ok || !fits {
			return "", false
		}
		lefts, rights = append(lefts, left.text), append(rights, right.text)
	}
	return strings.Join(lefts, ", ") + " = " + strings.Join(rights, ", "), true
}

func (g *gen) callStmt() bool {
	switch g.r.Intn(4) {
	case 0:
		name := g.one("println", "print")
		var words []string
		for n := g.r.Intn(3); n > 0; n-- {
			e, ok := g.value(g.typedOf(g.one("i", "s", "b")[0]), 2)
			if !ok {
				return false
			}
			words = append(words, e.text)
		}
		if !g.universe(name) {
			return false
		}
		g.line(name + "(" + strings.Join(words, ", ") + ")")
		return true
	case 1:
		if e, ok := g.pick(g.vars(isTyped, false)); ok {
			return g.methodStmt(e)
		}
		return false
	}
	e := g.list[g.r.Intn(len(g.list))]
	sig, isFunc := e.typ.(*types.Signature)
	if e.kind != 'f' || !isFunc {
		return false
	}
	name, ok := g.ref(e)
	if !ok {
		return false
	}
	text, ok := g.call(name, sig, 3)
	if ok {
		g.line(text)
	}
	return ok
}

func (g *gen) methodStmt(e ex) bool {
	for _, name := range g.some(g.member, len(g.member)) {
		object, _, _ := types.LookupFieldOrMethod(e.typ, e.addr, g.pkg, name)
		if method, ok := object.(*types.Func); ok {
			text, ok := g.call(e.in(7)+"."+name, method.Type().(*types.Signature), 2)
			if ok {
				g.line(text)
			}
			return ok
		}
	}
	return false
}

// inHeader makes what stands before the brace of an if or for.
func (g *gen) inHeader(make func()) {
	g.header++
	make()
	g.header--
}

func (g *gen) ifStmt(depth int, before string) bool {
	g.open()
	defer g.close()
	start, ok := "", true
	g.inHeader(func() {
		if g.chance(30) {
			if g.chance(60) {
				text, names, kinds, fits := g.short()
				if fits {
					g.declareAll(names, kinds)
					start = text + "; "
				}
			} else if text, fits := g.simple(true); fits {
				start = text + "; "
			}
		}
		var e ex
		e, ok = g.condition()
		start += e.text
	})
	if !ok {
		return false
	}
	g.line(before + "if " + start + " {")
	g.nested(func() { g.stmts(depth - 1) })
	switch {
	case g.chance(25):
		g.line("} else {")
		g.nested(func() { g.stmts(depth - 1) })
		g.line("}")
	case g.chance(25) && depth > 1:
		if !g.ifStmt(depth-1, "} else ") {
			g.line("}")
		}
	default:
		g.line("}")
	}
	return true
}

func (g *gen) forStmt(depth int) bool {
	g.open()
	defer g.close()
	header, ok := "", true
	g.inHeader(func() {
		switch g.r.Intn(4) {
		case 0:
		case 1:
			var e ex
			e, ok = g.condition()
			header = e.text + " "
		default:
			first, second, third := "", "", ""
			if g.chance(80) {
				text, names, kinds, fits := g.short()
				if fits {
					g.declareAll(names, kinds)
					first = text
				}
			}
			if e, fits := g.condition(); fits && g.chance(80) {
				second = " " + e.text
			}
			if text, fits := g.simple(true); fits && g.chance(80) {
				third = " " + text
			}
			header = first + ";" + second + ";" + third + " "
		}
	})
	if !ok {
		return false
	}
	g.line("for " + header + "{")
	g.loops++
	g.nested(func() { g.stmts(depth - 1) })
	g.loops--
	g.line("}")
	return true
}
