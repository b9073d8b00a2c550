package main

import (
	"fmt"
	"go/ast"
	"go/types"
	"os"
	"path/filepath"
	"regexp"
	"strings"
)

// A worked archive has its answers in it: a comment `/*RULE*/` stands right before each place where a rule is broken, or several, one behind the other. Nothing
// else is broken. Each case stands on lines of its own.

var (
	notes = regexp.MustCompile(`(/\*[A-Z][0-9]\*/)+`)
	note  = regexp.MustCompile(`/\*([A-Z][0-9])\*/`)
)

// readNotes notes the faults that a text of a worked archive says itself.
func (j *judgement) readNotes(where, text string) {
	for _, run := range notes.FindAllStringIndex(text, -1) {
		at := place{where, run[1]}
		for _, one := range note.FindAllStringSubmatch(text[run[0]:run[1]], -1) {
			j.put[at] = append(j.put[at], one[1])
		}
	}
}

// Elsewhere are the rules whose faults stand on another line than the error of go/types in the same package that is about them, or on more lines, by its code.
var elsewhere = map[string][]string{
	"B2": {"DuplicateDecl"},
	"B5": {"DuplicateFieldAndMethod"},
	"N9": {"BrokenImport"},
	"Y1": {"InvalidDeclCycle"},
	"Y7": {"InvalidInitCycle", "InvalidDeclCycle"},
}

// isElsewhere tells whether an error of go/types in a package is about one of the rules that a line breaks.
func isElsewhere(rules []string, codes map[string]bool) bool {
	for _, rule := range rules {
		for _, code := range elsewhere[rule] {
			if codes[code] {
				return true
			}
		}
	}
	return false
}

// isOwnLine tells whether a line has a fault that go/types does not have: what X1, N7 and L3 refuse, `print` and `println` of what is neither of `bool`, `int` nor `string`, and the
// quotient of the least integer and -1.
func (j *judgement) isOwnLine(at place, rules []string) bool {
	line := strings.Split(j.texts[at.file], "\n")[at.offset-1]
	if strings.HasPrefix(rules[0], "I") {
		return true // imports are the go command's
	}
	return has(rules, "X1") || has(rules, "N7") || has(rules, "L3") || has(rules, "C3") && strings.Contains(line, "print") || has(rules, "Y7") && strings.HasSuffix(strings.Trim(line, "\t )"), "/ -1")
}

// isOfNone tells whether in a line go/types has no type of what stands before the dot of a selector, of a receiver, or of what is named where a type is wanted.
func (j *judgement) isOfNone(line place) bool {
	isFound := false
	ast.Inspect(j.files[line.file], func(n ast.Node) bool {
		var of ast.Expr
		switch n := n.(type) {
		case *ast.SelectorExpr:
			of = n.X
		case *ast.FuncDecl:
			if n.Recv != nil {
				of = n.Recv.List[0].Type
			}
		case *ast.TypeSpec:
			of = n.Type
		}
		if of != nil && j.line(j.place(of.Pos())) == line {
			t := j.typeOf(of)
			isFound = isFound || !isValid(t) || !isValid(t.Underlying())
		}
		return true
	})
	return isFound
}

// typeOf gives the type of an expression, or of what a name denotes, if go/types has one.
func (j *judgement) typeOf(of ast.Expr) types.Type {
	if name, ok := of.(*ast.Ident); ok && j.info.Uses[name] != nil {
		return j.info.Uses[name].Type()
	}
	return j.info.Types[of].Type
}

// compareLines compares a worked package with go/types line by line: a line has a fault where go/types has an error in it.
func (t *tally) compareLines(j *judgement, errors []oddity, a *answer, inPackage func(place) bool, where func(place) string) {
	told, codes := map[place]string{}, map[string]bool{}
	for i := range errors {
		if !isSoft(errors[i]) && errors[i].code != "parse" {
			told[j.line(errors[i].at)] = errors[i].code
			codes[errors[i].code] = true
		}
	}
	own := map[place][]string{}
	for at, rules := range a.refused {
		if inPackage(at) {
			own[j.line(at)] = append(own[j.line(at)], rules...)
		}
	}
	for at, code := range told {
		if len(own[at]) == 0 && t.ruleOf(code, own) {
			t.named("an error on another line than its fault: "+code, where(at))
		} else if len(own[at]) == 0 {
			t.note("no fault in a worked line where go/types has "+code, where(at))
		} else {
			t.add("worked lines with a fault and an error")
		}
	}
	for at, rules := range own {
		switch {
		case told[at] != "":
		case j.isOwnLine(at, rules) || len(j.files) < len(j.texts) && (has(rules, "L1") || has(rules, "L2")):
			t.named("a worked line that go/types takes", where(at))
		case isElsewhere(rules, codes):
			t.named("a fault on another line than the error of go/types, or on more lines: "+strings.Join(rules, " "), where(at))
		case j.isOfNone(at):
			t.named("a fault about what has no type, of which go/types says no more than why it has none: "+strings.Join(rules, " "), where(at))
		default:
			t.note("no error of go/types in a worked line with "+strings.Join(rules, " "), where(at))
		}
	}
}

// ruleOf tells whether an error is about a rule that another line breaks.
func (t *tally) ruleOf(code string, own map[place][]string) bool {
	for _, rules := range own {
		if isElsewhere(rules, map[string]bool{code: true}) {
			return true
		}
	}
	return false
}

// line gives the line of a place, as a place.
func (j *judgement) line(at place) place {
	return place{at.file, strings.Count(j.texts[at.file][:at.offset], "\n") + 1}
}

// noted writes the marks of a mistake as notes.
func noted(text string) string { return mark.ReplaceAllString(text, "/*$1*/") }

// helpersOf gives the declarations that a text names, and those that these name.
func helpersOf(text string) string {
	needed := map[string]bool{}
	var need func(string)
	need = func(text string) {
		for _, name := range word.FindAllString(text, -1) {
			if name == "Q9" || name == "V9" {
				name = "L9"
			}
			if helpers[name] != "" && !needed[name] {
				needed[name] = true
				need(helpers[name])
			}
		}
	}
	need(text)
	var all strings.Builder
	for _, name := range helperOrder {
		if needed[name] {
			all.WriteString(helpers[name])
		}
	}
	return all.String()
}

// workedTable writes the table of mistakes as a worked archive: those that stand in functions in one package, an expression in three places, and each of those that stand outside functions in a
// package of its own.
func workedTable() string {
	var inside, outside strings.Builder
	for at, k := range mistakes {
		switch text := noted(k.expr + k.stmt); {
		case k.expr != "":
			fmt.Fprintf(&inside, "\nfunc case%03d() {\n\t_ = %s\n\tx := (%s)\n\t_ = x\n\tany9(%s)\n}\n", at, text, text, text)
		case k.stmt != "":
			fmt.Fprintf(&inside, "\nfunc case%03d() {\n\t%s\n}\n", at, strings.ReplaceAll(text, "\n", "\n\t"))
		default:
			outer := noted(k.outer)
			clause, imports := "package p\n\n", ""
			if strings.HasPrefix(outer, clause) {
				outer = strings.TrimPrefix(outer, clause)
				end := strings.LastIndex(outer, "import ")
				end += strings.Index(outer[end:], "\n") + 1
				imports, outer = outer[:end]+"\n", outer[end:]
			}
			fmt.Fprintf(&outside, "-- ex.com/case%03d/a.go --\n%s%s%s\n%s", at, clause, imports, helpersOf(k.outer), outer)
		}
	}
	text := inside.String()
	return "form worked\n" + aidText + "-- ex.com/lib/a.go --\npackage lib\n-- ex.com/p/a.go --\npackage p\n\n" + helpersOf(text) + text + outside.String()
}

// writeTable writes the table of mistakes into a folder.
func writeTable(folder string) {
	if err := os.WriteFile(filepath.Join(folder, "table.txt"), []byte(workedTable()), 0o666); err != nil {
		fail(err)
	}
}
