package main

import (
	"go/types"
	"regexp"
	"strings"
)

// A mistake is an error that is put into a package. In its text «RULE» stands where the rule is broken. Names that end with 9 are declared for it.
type mistake struct {
	name  string // the rule, and a word that tells it from others of the rule
	expr  string // an expression, which is put where a value of any type may stand
	mild  bool   // whether the expression is a value all the same, so that it stands where any value may
	stmt  string // statements
	outer string // declarations, or a whole file where it begins with a package clause
	aid   bool   // whether the file needs the package ex.com/aid
}

// aidText is a package that whole files import.
const aidText = `-- ex.com/aid/aid.go --
package aid

type T struct{ F, hidden int }

func (t T) M() int { return t.F }
func (t T) put() int { return t.hidden }

type hidden struct{ x, X int }

type G struct{ hidden }

type I interface{ put() int }

const C = 1
const c = 2

var V T

func Fn(x int) int { return x }
func help() int { return 1 }
`

// helpers are right declarations that mistakes name.
var helpers = map[string]string{
	"T9":    "type T9 struct {\n\ta, b int\n}\n\nfunc (t T9) m() int { return t.a }\n\nfunc (t *T9) pm() int { return t.b }\n",
	"O9":    "type O9 struct {\n\tT9\n\tz string\n}\n",
	"L9":    "type L9 struct{ f int }\n\ntype Q9 struct{ f string }\n\ntype V9 struct {\n\tL9\n\tQ9\n}\n",
	"K9":    "type K9 int\n",
	"I9":    "type I9 interface{ M() }\n",
	"P9":    "type P9 *T9\n",
	"v9":    "var v9 T9\n",
	"w9":    "var w9 O9\n",
	"d9":    "var d9 V9\n\nvar _ L9\n",
	"i9":    "var i9 int\n",
	"s9":    "var s9 string\n",
	"b9":    "var b9 bool\n",
	"k9":    "var k9 K9\n",
	"p9":    "var p9 P9\n",
	"pp9":   "var pp9 **T9\n",
	"pi9":   "var pi9 *I9\n",
	"a9":    "var a9 any\n",
	"e9":    "var e9 I9\n",
	"c9":    "const c9 = 1\n",
	"one9":  "func one9(x int) int { return x }\n",
	"two9":  "func two9() (int, int) { return 1, 2 }\n",
	"none9": "func none9() {}\n",
	"mk9":   "func mk9() T9 { return T9{} }\n",
	"any9":  "func any9(x any) {}\n",
	"lit9":  "type lit9 struct{ x any }\n",
	"pair9": "func pair9(x int, s string) {}\n",
	"ifn9":  "func ifn9(x I9) int { return 1 }\n",
}

// helperOrder is the order in which they are put in.
var helperOrder = []string{"T9", "O9", "L9", "K9", "I9", "P9", "v9", "w9", "d9", "i9", "s9", "b9", "k9", "p9", "pp9", "pi9", "a9", "e9", "c9", "one9", "two9",
	"none9", "mk9", "any9", "lit9", "pair9", "ifn9"}

// Where an expression is put that is refused, so that it breaks no further rule, and where one that is a value.
var (
	mildPlaces  = []string{"_ = E", "x9 := E\n_ = x9", "var x9 = (E)\n_ = x9", "any9(E)", "_ = lit9{E}", "_ = &lit9{x: E}", "a9 = E", "_, a9 = 1, E", "a9 = any(E)"}
	strictPlace = []string{"if E {\n}", "_ = 1 + (E)", "_ = !(E)", "for (E) {\n}", "println(E)", "i9 = E", "_ = one9(E)", "i9 += E", "_ = T9{a: E}", "_ = (E) == i9", "var x9 int = E\n_ = x9"}
)

var word = regexp.MustCompile(`[\pL_][\pL\pN_]*`)

// all is the text of the mistake, and where its expression may be put.
func (k *mistake) all() string {
	text := k.expr + " " + k.stmt + " " + k.outer
	if k.expr != "" {
		text += " " + strings.Join(mildPlaces, " ") + strings.Join(strictPlace, " ")
	}
	return text
}

// support puts the helpers into a package that the mistake names.
func (k *mistake) support(m *made) {
	needed := map[string]bool{}
	var need func(text string)
	need = func(text string) {
		for _, name := range word.FindAllString(text, -1) {
			if name == "Q9" || name == "V9" {
				name = "L9"
			}
			if helpers[name] != "" && !needed[name] {
				needed[name] = true
				need(helpers[name])
			}
		}
	}
	need(k.all())
	for _, name := range helperOrder {
		if needed[name] {
			f := m.file()
			f.pieces = append(f.pieces, helpers[name])
		}
	}
	if k.expr != "" {
		k.stmt = k.expr
	}
}

// predeclaredIn tells whether all predeclared names of a text mean that outside functions.
func (m *made) predeclaredIn(text string) bool {
	for _, name := range word.FindAllString(text, -1) {
		if types.Universe.Lookup(name) != nil && m.top[name] != nil {
			return false
		}
	}
	return true
}

// write writes the statements of the mistake, where its names can be seen.
func (k *mistake) write(g *gen) (string, bool) {
	text := k.stmt
	if k.expr != "" {
		places := mildPlaces
		if !k.mild && g.chance(50) {
			places = strictPlace
		}
		frame := places[g.r.Intn(len(places))]
		if strings.HasPrefix(frame, "if") && strings.Contains(k.expr, "{") {
			frame = mildPlaces[0]
		}
		text = strings.Replace(frame, "E", k.expr, 1)
	}
	for _, name := range word.FindAllString(text, -1) {
		if types.Universe.Lookup(name) != nil && !g.universe(name) {
			return "", false
		}
	}
	if strings.Contains(text, "\n") && g.chance(50) {
		text = "{\n\t" + strings.ReplaceAll(text, "\n", "\n\t") + "\n}"
	}
	return text, true
}

// finish puts in what stands outside functions.
func (k *mistake) finish(m *made) {
	if k.outer == "" {
		return
	}
	if !m.predeclaredIn(k.outer) {
		return
	}
	m.placed = true
	if strings.HasPrefix(k.outer, "package ") {
		f := &fileMade{name: m.one("0.go", "aa.go", "z.go"), quals: map[*made]string{}}
		text := strings.TrimPrefix(k.outer, "package p\n\n")
		f.pieces = []string{text}
		m.files = append(m.files, f)
		return
	}
	f := m.file()
	if m.chance(50) {
		f.pieces = append(f.pieces, k.outer)
		return
	}
	f.pieces = append([]string{k.outer}, f.pieces...)
	for _, fn := range m.funcs {
		if fn.file == f {
			fn.piece++
		}
	}
}

// aidFile is a whole file whose function has these statements.
func aidFile(stmts string) string {
	return "package p\n\nimport \"ex.com/aid\"\n\nfunc aid9() {\n\t" + stmts + "\n}\n"
}

func exprs(rule string, mild bool, list ...string) []*mistake {
	var made []*mistake
	for _, text := range list {
		made = append(made, &mistake{name: rule + ":" + strings.ReplaceAll(mark.ReplaceAllString(text, ""), " ", "_"), expr: text, mild: mild})
	}
	return made
}

func stmts(rule string, list ...string) []*mistake {
	var made []*mistake
	for _, text := range list {
		name := strings.NewReplacer(" ", "_", "\n", ";").Replace(mark.ReplaceAllString(text, ""))
		made = append(made, &mistake{name: rule + ":" + name, stmt: text})
	}
	return made
}

func outers(rule string, list ...string) []*mistake {
	var made []*mistake
	for _, text := range list {
		name := strings.NewReplacer(" ", "_", "\n", ";", "\t", "").Replace(mark.ReplaceAllString(text, ""))
		made = append(made, &mistake{name: rule + ":" + name, outer: text + "\n"})
	}
	return made
}

func aids(rule string, list ...string) []*mistake {
	var made []*mistake
	for _, text := range list {
		name := strings.NewReplacer(" ", "_", "\n", ";", "\t", "").Replace(mark.ReplaceAllString(text, ""))
		made = append(made, &mistake{name: rule + ":" + name, outer: aidFile(text), aid: true})
	}
	return made
}

func files(rule string, list ...string) []*mistake {
	made := outers(rule, list...)
	for _, k := range made {
		k.aid = true
	}
	return made
}

func joined(lists ...[]*mistake) []*mistake {
	var all []*mistake
	for _, list := range lists {
		all = append(all, list...)
	}
	return all
}

// mistakes are all that are put in, in turn.
var mistakes = joined(
	exprs("N1", false, "«N1»undeclared9", "«N1»undeclared9«C1»(1)", "«N1»undeclared9.«S4»x", "«N1»init«C1»()", "«N1»main9.«S4»f«C1»()"),
	stmts("N1", "var x9 «N1»undeclared9\n_ = x9", "_ = «N1»late9\nlate9 := 1\n_ = late9", "own9 := «N1»own9 + 1\n_ = own9", "{\n\tin9 := 1\n\t_ = in9\n}\n_ = «N1»in9",
		"var x9 «N1»nopkg9.«S4»T\n_ = x9", "if in9 := 1; in9 == 1 {\n}\n_ = «N1»in9", "«N1»undeclared9 = 1", "_ = «N1»«F8»undeclared9{}"),
	outers("N1", "func sig9(x «N1»undeclared9) {}", "type fld9 struct {\n\tx «N1»undeclared9\n}", "var q9 «N1»undeclared9", "const q9 «N1»undeclared9 = 1",
		"func (x «N1»undeclared9) m9() {}", "type q9 «N1»undeclared9", "type q9 interface {\n\tm(x «N1»undeclared9) int\n}", "const q9 = «N1»undeclared9 + 1"),
	aids("N2", "_ = aid.«N2»c", "var x9 aid.«N2»hidden\n\t_ = x9", "_ = aid.«N2»help«C1»()"),
	aids("N3", "_ = aid.«N3»Absent", "var x9 aid.«N3»Absent\n\t_ = x9", "_ = aid.«N3»Absent«C1»()"),
	aids("N4", "_ = «N4»aid", "«N4»aid«C1»()", "_ = 1 + «N4»aid"),
	exprs("N5", false, "«N5»int", "«N5»T9", "-«N5»T9", "1 + «N5»K9", "«N5»error", "«N5»T9.«S4»zz"),
	aids("N5", "_ = aid.«N5»T"),
	stmts("N6", "var x9 «N6»one9\n_ = x9", "var x9 *«N6»v9\n_ = x9", "_ = (*«N6»v9)«C1»(nil)", "_ = «N6»«F8»v9{}", "var x9 «N6»nil\n_ = x9", "var x9 «N6»len\n_ = x9", "var x9 «N6»c9\n_ = x9"),
	aids("N6", "var x9 aid.«N6»Fn\n\t_ = x9"),
	aids("N4", "var x9 «N4»aid\n\t_ = x9"),
	outers("N6", "type q9 struct {\n\tx «N6»one9\n}", "func q9(x «N6»c9) {}"),
	exprs("N7", true, "«N7»int8«C1»(1)", "«N7»cap«C1»(s9)", "«N7»iota"),
	stmts("N7", "var x9 «N7»float64\n_ = x9", "var x9 *«N7»byte\n_ = x9", "_ = «N7»new«C1»(«N5»int)"),
	exprs("N8", false, "«N8»_", "«N8»_«C1»()", "1 + «N8»_", "«N8»_.«S4»x"),
	stmts("N8", "«N8»_ += 1", "«N8»_++", "var x9 «N8»_\n_ = x9"),
	files("N9", "package p\n\nimport «I2»\"ex.com/none\"\n\nfunc none9x() {\n\t_ = «N9»none.«S4»X\n}", "package p\n\nimport n9 «I2»\"ex.com/none\"\n\nfunc none9x() {\n\tn9x := «N9»n9.«S4»X«C1»()\n\t_ = n9x\n}"),
	exprs("S1", false, "v9.«S1»absent", "v9.«S1»absent«C1»()", "i9.«S1»x", "e9.«S1»absent", "mk9().«S1»absent", "(&v9).«S1»absent", "c9.«S1»x"),
	exprs("S2", false, "d9.«S2»f", "(&d9).«S2»f"),
	aids("S3", "_ = aid.T{}.«S3»hidden", "_ = aid.V.«S3»put«C1»()", "_ = aid.G{}.«S3»x", "aid.V.«S3»hidden = 1"),
	exprs("S4", false, "two9().«S4»x", "none9().«S4»x"),
	exprs("S5", false, "mk9().«S5»pm«C1»()", "T9{}.«S5»pm«C1»()", "O9{}.«S5»pm«C1»()"),
	exprs("S6", false, "pp9.«S6»a", "pi9.«S6»M«C1»()", "nil.«S6»x", "pp9.«S6»m«C1»()", "(&pp9).«S6»a"),
	exprs("S7", false, "p9.«S7»m«C1»()", "p9.«S7»pm«C1»()"),
	exprs("S8", false, "v9.«S8»_", "v9.«S8»_«C1»()"),
	exprs("F1", true, "T9{«F1»zz: 1}", "T9{«F1»_: 1}", "T9{a: 1, «F1»m: 2}", "struct{ a int }{«F1»b: 1}"),
	aids("F2", "_ = aid.T{«F2»hidden: 1}", "_ = aid.G{«F2»hidden: aid.G{}}"),
	exprs("F3", true, "O9{«F3»a: 1}", "O9{«F3»b: 1, z: s9}"),
	exprs("F4", true, "T9{«F4»a: 1, «F4»a: 2}", "T9{«F4»a: 1, b: 1, «F4»a: i9}"),
	exprs("F5", true, "«F5»T9{«F5»a: 1, 2}", "«F5»T9{1, «F5»b: 2}"),
	exprs("F6", true, "«F6»T9{1}", "«F6»T9{1, 2, 3}", "«F6»struct{ a, b int }{1}", "«F6»O9{T9{}}"),
	aids("F7", "_ = «F7»aid.T{1, 2}", "_ = «F7»aid.G{«Y4»1}"),
	exprs("F8", true, "«F8»int{}", "«F8»K9{1}", "«F8»I9{}", "«F8»P9{«F8»a: 1}", "«F8»any{}"),
	exprs("C1", false, "«C1»i9«C1»()", "«C1»c9«C1»(1)", "v9.«C1»a«C1»()", "«C1»nil«C1»()", "one9(1)«C1»()", "(1)«C1»(2)", "(«C1»i9)«C1»(1)", "\"a\"«C1»()"),
	exprs("C2", false, "one9«C2»()", "one9«C2»(1, 2)", "len«C2»()", "len«C2»(s9, s9)", "int«C2»()", "int«C2»(1, 2)", "v9.m«C2»(1)", "one9«C2»(two9())", "K9«C2»(two9())", "len«C2»(two9())"),
	stmts("C2", "none9«C2»(1)", "panic«C2»()", "panic«C2»(1, 2)", "pair9«C2»(«Y3»two9(), «Y3»two9(), 1)", "pair9«C2»(1)"),
	exprs("C3", false, "one9«C3»(s9)", "len«C3»(5)", "len«C3»(v9)", "one9«C3»(nil)", "one9«C3»(a9)", "ifn9«C3»(v9)", "one9«C3»(none9())", "one9«C3»(k9)", "len«C3»(none9())", "one9«C3»(true)", "ifn9«C3»(&v9)"),
	stmts("C3", "pair9«C3»(two9())", "println«C3»(v9)", "print«C3»(nil)", "println«C3»(1, &v9)", "pair9«C3»(1, 2)", "panic«C3»(none9())", "pair9«C3»(s9, 1)", "println«C3»(none9())"),
	exprs("C4", false, "int«C4»(s9)", "T9«C4»(1)", "bool«C4»(1)", "string«C4»(true)", "(*T9)«C4»(i9)", "I9«C4»(v9)", "int«C4»(nil)", "K9«C4»(s9)", "T9«C4»(w9)", "int«C4»(none9())", "bool«C4»(i9)"),
	exprs("X1c", true, "string«X1»(i9)", "string«X1»(65)", "string«X1»(k9)"),
	exprs("X1f", true, "«X1»one9", "v9.«X1»m", "«X1»println", "«X1»len", "e9.«X1»M", "(«X1»none9)"),
	exprs("X1b", true, "«X1»i9 & 1", "«X1»1 << 2", "«X1»^i9", "«X1»i9 >> 1", "«X1»i9 &^ 2", "«X1»i9 | 1", "«X1»i9 ^ i9"),
	stmts("X1b", "«X1»i9 |= 1", "«X1»i9 <<= 1", "«X1»i9 &^= i9"),
	exprs("X1n", false, "«X1»9223372036854775807 + 1", "«X1»9223372036854775807 * 2", "«X1»-9223372036854775807 - 2"),
	outers("X1v", "var q9 = «X1»one9(1)", "var q9 = «X1»i9", "var q9 = «X1»&v9", "var q9 *int = «X1»nil", "var q9 = «X1»T9{}", "var q9, r9 = 1, «X1»i9 + 1", "var q9 any = «X1»v9", "var q9 = «X1»len(s9)"),
	outers("Y1", "type «Y1»q9 struct {\n\tx q9\n}", "type «Y1»q9 struct{ b r9 }\n\ntype «Y1»r9 struct{ a q9 }", "type «Y1»q9 q9", "type «Y1»q9 struct{ q9 }", "type «Y1»q9 r9\n\ntype «Y1»r9 q9"),
	outers("Y2", "type q9 struct {\n\t«Y2»P9\n}", "type q9 struct {\n\t*«Y2»I9\n}", "type q9 struct {\n\t*«Y2»P9\n}", "type q9 struct {\n\t*«Y2»error\n}"),
	exprs("Y3", false, "«Y3»i9 + \"a\"", "«Y3»\"a\" - \"b\"", "«Y3»!i9", "«Y3»-s9", "«Y3»*i9", "«Y3»&one9(1)", "«Y3»i9 && true", "«Y3»v9 + v9", "«Y3»v9 < v9", "«Y3»true < false", "«Y3»nil == nil",
		"«Y3»i9 == \"a\"", "«Y3»k9 + i9", "«Y3»i9 == nil", "1 + «Y3»two9()", "1 + «Y3»none9()", "-«Y3»two9()", "«Y3»&c9", "«Y3»&1", "«Y3»*nil", "«Y3»s9 % s9", "«Y3»\"a\" + 1", "«Y3»1 == true", "«Y3»v9 == w9",
		"«Y3»e9 == v9", "«Y3»nil + 1", "«Y3»-nil", "«Y3»!nil", "«Y3»&nil", "«Y3»b9 + b9", "«Y3»a9 + a9", "«Y3»a9 < a9", "«Y3»two9() == i9", "«Y3»&mk9().a", "«Y3»-v9", "«Y3»1 && 2", "«Y3»*\"a\"", "&«Y3»two9()",
		"«Y3»1 + nil", "«Y3»\"a\" == nil", "&«Y3»none9()"),
	stmts("Y3", "if «Y3»i9 {\n}", "for «Y3»s9 {\n}", "«Y3»s9++", "«Y3»one9(1)++", "«Y3»i9 += \"a\"", "«Y3»c9 += 1", "«Y3»b9 += true", "if «Y3»two9() {\n}", "_, _ = 1, «Y3»two9()", "for i := 0; «Y3»i; i++ {\n}",
		"«Y3»nil += 1", "«Y3»v9--", "«Y3»s9 -= \"a\"", "pair9(«Y3»two9(), s9)", "«Y3»mk9().a += 1", "«Y3»c9++", "if «Y3»1 {\n}", "if «Y3»nil {\n}", "if «Y3»none9() {\n}", "«Y3»two9()++", "«Y3»k9 += i9"),
	exprs("Y3e", true, "T9{«Y3»two9(), 1}", "T9{a: «Y3»two9()}", "T9{a: «Y3»none9()}"),
	stmts("Y4", "«Y4»i9 = \"a\"", "«Y4»i9, s9 = 1", "«Y4»i9 = two9()", "«Y4»i9, s9 = 1, 2", "«Y4»one9(1) = 2", "«Y4»c9 = 1", "«Y4»1 = 2", "«Y4»nil = a9", "var «Y4»x9 int = \"a\"\n_ = x9", "var «Y4»x9, y9 = 1\n_, _ = x9, y9",
		"«Y4»x9 := nil\n_ = x9", "«Y4»x9, y9 := 1\n_, _ = x9, y9", "«Y4»x9 := none9()\n_ = x9", "«Y4»_ = nil", "const «Y4»x9 int = \"a\"\n_ = x9", "«Y4»_ = none9()", "«Y4»i9 = nil", "var «Y4»x9 I9 = v9\n_ = x9",
		"«Y4»v9 = w9", "«Y4»mk9().a = 1", "«Y4»a9, a9, a9 = two9()", "var «Y4»x9, y9 int = «Y3»two9(), «Y3»two9(), 1\n_, _ = x9, y9", "«Y4»i9 = a9", "«Y4»e9 = v9", "«Y4»k9 = i9", "var «Y4»x9 string = nil\n_ = x9", "«Y4»i9 + 1 = 2",
		"«Y4»true = false", "«Y4»i9, s9 = two9()", "var «Y4»x9, y9 string = two9()\n_, _ = x9, y9", "«Y4»x9, y9, z9 := two9()\n_, _, _ = x9, y9, z9", "«Y4»i9, 1 = 1, 1", "for i := 0; i < 3; «Y4»i = \"a\" {\n}",
		"if «Y4»s9 = 1; b9 {\n}", "«Y4»b9 = 1", "«Y4»&v9 = nil", "var «Y4»x9 = nil\n_ = x9", "var «Y4»x9 = none9()\n_ = x9", "const «Y4»x9, y9 = 1\n_ = x9", "«Y4»p9 = &w9", "«Y4»T9{}.a = 1", "«Y4»_, _ = 1"),
	exprs("Y4e", true, "T9{«Y4»a: \"s\"}", "T9{1, «Y4»\"s\"}", "T9{b: 1, «Y4»a: nil}", "struct{ p *int }{«Y4»1}", "O9{«Y4»T9: 1}", "O9{«Y4»v9.a, s9}"),
	outers("Y4r", "func r9() int {\n\t«Y4»return \"a\"\n}", "func r9() (int, int) {\n\t«Y4»return 1\n}", "func r9() {\n\t«Y4»return 1\n}", "func r9() int {\n\t«Y4»return\n}", "func r9() (x int) {\n\t«Y4»return 1, 2\n}",
		"func r9() int {\n\t«Y4»return two9()\n}", "func r9() int {\n\t«Y4»return nil\n}", "func r9() (int, string) {\n\t«Y4»return two9()\n}", "func r9() I9 {\n\t«Y4»return v9\n}", "func r9() {\n\t«Y4»return none9()\n}", "func r9() int {\n\t«Y4»return none9()\n}",
		"func r9() (int, int) {\n\treturn «Y3»two9(), 1\n}"),
	outers("Y4o", "var «Y4»q9 int = \"a\"", "const «Y4»q9 int = \"a\"", "const «Y4»q9, r9 = 1", "var «Y4»q9, r9 = 1", "var «ok»q9 = «X1»nil", "var «Y4»q9 string = 1", "const «Y4»q9 K9 = \"a\"", "const «Y4»q9 bool = 1", "var «Y4»q9 T9 = 1", "var «Y4»q9, r9 int = 1, 2, 3"),
	outers("Y5", "func r9() int {\n«Y5»}", "func r9(x bool) int {\n\tif x {\n\t\treturn 1\n\t}\n«Y5»}", "func r9() int {\n\tfor {\n\t\tbreak\n\t}\n«Y5»}", "func r9() (x int) {\n\tx = 1\n«Y5»}", "func r9(x bool) int {\n\tfor x {\n\t}\n«Y5»}", "func r9() int { one9(1) «Y5»}"),
	outers("Y6", "func r9() {\n\t«Y6»break\n}", "func r9(x bool) {\n\tif x {\n\t\t«Y6»continue\n\t}\n}", "func r9() {\n\tfor false {\n\t}\n\t«Y6»break\n}"),
	stmts("Y7", "const x9 = «Y7»i9\n_ = x9", "const x9 = «Y7»one9(1)\n_ = x9", "const x9 = «Y7»v9\n_ = x9", "const x9 = «Y7»nil\n_ = x9", "const x9 any = «Y7»1\n_ = x9", "«Y7»i9 /= 0", "const x9 T9 = «Y7»1\n_ = x9", "const x9 int = «Y7»i9\n_ = x9", "«Y7»i9 %= 1 - 1", "const x9 = «Y7»none9()\n_ = x9", "const x9 = «Y7»two9()\n_ = x9", "const x9 = «Y7»T9{}\n_ = x9", "const x9 = «Y7»len(s9)\n_ = x9", "const x9 = «Y7»int(i9)\n_ = x9", "const x9, y9 = 1, «Y7»i9\n_ = x9"),
	exprs("Y7", false, "«Y7»i9 / 0", "«Y7»i9 % (1 - 1)", "«Y7»1 / 0", "«Y7»K9(9223372036854775807) + 1", "«Y7»-(int(-9223372036854775807) - 1)", "«Y7»int(9223372036854775807) * 2", "«Y7»1 % 0", "«Y7»k9 / K9(0)", "«Y7»int(-9223372036854775807) - 2", "«Y7»(int(-9223372036854775807) - 1) / -1"),
	outers("Y7", "const «Y7»q9 = q9", "const «Y7»q9 = r9\n\nconst «Y7»r9 = q9", "const «Y7»q9 int = q9 + 1", "const q9 = r9\n\nconst «Y7»r9 = r9", "const q9 = «Y7»i9", "const q9 = «Y7»one9(1)", "const q9 any = «Y7»1", "const q9 = «Y7»1 / 0", "const q9 K9 = «Y7»i9", "const «Y7»q9 = «Y7»len(q9)", "const «Y7»q9, «Y7»r9 = r9, q9", "const q9 = «Y7»T9{}", "const q9 T9 = «Y7»1", "const q9 *int = «Y7»nil"),
	stmts("Y8", "«Y8»i9", "«Y8»1 + 2", "«Y8»int(1)", "«Y8»len(s9)", "«Y8»v9.a", "«Y8»(i9)", "«Y8»T9{}", "«Y8»-i9", "«Y8»nil", "«Y8»*pp9", "«Y8»&v9", "if «Y8»i9; true {\n}", "for «Y8»1; true; {\n}", "«Y8»\"a\"", "«Y8»i9 == 1", "«Y8»(int)(i9)"),
	outers("B1", "var q9 int\n\nvar «B1»q9 string", "func q9() {}\n\ntype «B1»q9 int", "func q9(x int, «B1»x int) {}", "func q9(x int) («B1»x int) { return }", "func (x T9) m9(«B1»x int) {}", "func q9(x int) {\n\tvar «B1»x int\n\t_ = x\n}", "type q9 interface {\n\tm(a, «B1»a int)\n}",
		"const q9 = 1\n\nconst «B1»q9 = 2", "func q9() {}\n\nfunc «B1»q9() {}", "var q9, «B1»q9 int", "func q9(x int) {\n\tconst «B1»x = 1\n}", "func q9(a, «B1»a int) {}", "func q9() (r, «B1»r int) { return }", "type q9 interface {\n\tm(a int) («B1»a string)\n}"),
	stmts("B1", "var d9x int\nvar «B1»d9x string\n_ = d9x", "a9x, «B1»a9x := 1, 2\n_ = a9x", "const d9x = 1\nvar «B1»d9x = 2\n_ = d9x", "var d9x, «B1»d9x int\n_ = d9x", "d9x := 1\nconst «B1»d9x = 2\n_ = d9x"),
	files("B1", "package p\n\nimport \"ex.com/aid\"\nimport aid «B1»\"ex.com/lib\"\n\nvar _ = «X1»aid.V", "package p\n\nimport \"ex.com/aid\"\nimport «B1»\"ex.com/aid\"\n\nvar _ = aid.C"),
	files("B2", "package p\n\nimport «B2»\"ex.com/aid\"\n\nvar aid int", "package p\n\nimport q9 «B2»\"ex.com/aid\"\n\nfunc q9() {}", "package p\n\nimport . «B2»\"ex.com/aid\"\n\nconst V = 1"),
	outers("B3", "var «B3»init = 1", "func «B3»init(x int) {}", "func «B3»init() int { return 1 }", "type «B3»init int", "const «B3»init = 1"),
	stmts("B4", "n9 := 1\n«B4»n9 := 2\n_ = n9", "«B4»_ := 1", "n9, m9 := 1, 2\n«B4»n9, _, m9 := 1, 2, 3\n_, _ = n9, m9"),
	outers("B4", "func q9(x int) {\n\t«B4»x := 1\n\t_ = x\n}", "func q9() (x int) {\n\t«B4»x := 1\n\treturn x\n}"),
	outers("B5", "type q9 struct {\n\ta int\n\t«B5»a string\n}", "type q9 int\n\nfunc (q9) m() {}\n\nfunc (q9) «B5»m() {}", "type q9 struct{ a int }\n\nfunc (q9) «B5»a() {}", "type q9 interface {\n\tm()\n\t«B5»m()\n}", "type q9 interface {\n\t«B5»_()\n}",
		"type q9 struct {\n\tT9\n\t«B5»T9 int\n}", "type q9 struct{ a, «B5»a int }", "func (q9) a() {}\n\ntype q9 struct{ «B5»a int }", "type q9 struct {\n\tT9\n\t*«B5»T9\n}"),
	outers("B6", "func (x «B6»int) m9() {}", "func (x «B6»P9) m9() {}", "func (x *«B6»P9) m9() {}", "func (x «B6»I9) m9() {}", "func (*«B6»I9) m9() {}", "func («B6»error) m9() {}"),
	files("B6", "package p\n\nimport \"ex.com/aid\"\n\nfunc (x «B6»aid.T) m9() {}"),
	outers("alias", "type q9 = «N1»nope9", "type q9 = «N6»i9", "type q9 = «N6»one9", "type q9 = «N7»float64", "type «Y1»q9 = q9", "type «Y1»q9 = r9\n\ntype «Y1»r9 = q9", "type «Y1»q9 struct{ r9 }\n\ntype «Y1»r9 = q9",
		"type «Y1»q9 = r9\n\ntype «Y1»r9 struct{ a, b u9 }\n\ntype «Y1»u9 = q9", "type q9 struct{ a int }\n\ntype r9 = q9\n\nfunc (q9) m() {}\n\nfunc (r9) «B5»m() {}", "type q9 struct{ a int }\n\ntype r9 = q9\n\nfunc (r9) «B5»a() {}",
		"type r9 = q9\n\nfunc (*r9) a() {}\n\ntype q9 struct{ «B5»a int }", "type q9 = int\n\nfunc (x «B6»q9) m9() {}", "type q9 = P9\n\nfunc (x *«B6»q9) m9() {}", "type q9 = I9\n\nfunc («B6»q9) m9() {}",
		"type q9 = «N1»nope9\n\nfunc (x «B6»q9) m9() {}", "type q9 = P9\n\ntype r9 struct{ «Y2»q9 }", "type q9 = error\n\ntype r9 struct{ *«Y2»q9 }", "type q9 = T9\n\ntype r9 struct {\n\tq9\n\t«B5»q9 int\n}", "type q9 = T9\n\ntype «B1»q9 = int",
		"type q9 = K9\n\nconst «Y4»r9 q9 = \"a\"", "type q9 = T9\n\nfunc r9(a struct{ q9 }, b struct{ T9 }) {\n\t«Y4»a = b\n}", "type q9 = T9\n\nfunc r9(a struct{ q9 }) int { return a.«S1»T9.«S4»a }", "type q9 = T9\n\nfunc r9() { _ = q9{«F1»z: 1} }",
		"type q9 = string\n\nfunc r9() { _ = q9«X1»(i9) }", "type q9 = K9\n\nfunc r9() { _ = q9«C4»(s9) }", "type q9 = T9\n\nfunc r9() { _ = «N5»q9 }", "type q9 = error\n\nfunc r9(x q9) { _ = x.«S1»M }"),
	files("alias", "package p\n\nimport \"ex.com/aid\"\n\ntype q9 = aid.T\n\nfunc (x «B6»q9) m9() {}", "package p\n\nimport \"ex.com/aid\"\n\ntype q9 = aid.«N6»V", "package p\n\nimport \"ex.com/aid\"\n\ntype q9 = aid.«N3»nope9",
		"package p\n\nimport \"ex.com/aid\"\n\ntype q9 = aid.T\n\ntype r9 = q9\n\nfunc (x *«B6»r9) m9() {}"),
)
