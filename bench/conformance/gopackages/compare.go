package main

import (
	"bufio"
	"fmt"
	"os"
	"path"
	"sort"
	"strconv"
	"strings"
)

// An answer is what test_cases says of a workspace.
type answer struct {
	uses     map[place]use
	refused  map[place][]string // the rules of outcomes and faults
	paths    map[place]string
	consts   map[place]string
	packages map[string]string
}

// readAnswers reads the answers to archives, in order.
func readAnswers(name string) (map[string]*answer, error) {
	file, err := os.Open(name)
	if err != nil {
		return nil, err
	}
	defer file.Close()
	all := map[string]*answer{}
	var one *answer
	from, at := "", ""
	lines := bufio.NewScanner(file)
	lines.Buffer(make([]byte, 1<<20), 1<<26)
	for lines.Scan() {
		words := strings.SplitN(lines.Text(), " ", 3)
		switch {
		case words[0] == "==":
			one = &answer{map[place]use{}, map[place][]string{}, map[place]string{}, map[place]string{}, map[string]string{}}
			all[lines.Text()[3:]] = one
		case words[0] == "package" && len(words) > 2:
			from = words[1]
			one.packages[from] = words[2]
			one.addFault(from, words[2])
		case words[0] == "file":
			at = from + "/" + words[1]
		case len(words) == 3 && one != nil:
			one.add(at, words[0], words[1], words[2])
		case len(words) == 1 && (words[0] == "P1" || words[0] == "P2"):
		default:
			return nil, fmt.Errorf("no line of an answer: %q", lines.Text())
		}
	}
	return all, lines.Err()
}

// addFault notes why a package does not assemble, RULE FILE:OFFSET. K4 says no more than the fault of the file.
func (a *answer) addFault(from, said string) {
	if words := strings.Fields(said); len(words) == 2 && words[0] != "K4" {
		at := placeOf(from + "/" + words[1])
		a.refused[at] = append(a.refused[at], words[0])
	}
}

// add notes a line on a file.
func (a *answer) add(file, first, second, rest string) {
	switch first {
	case "path":
		a.paths[place{file, int(number(second))}] = rest
	case "const":
		a.consts[place{file, int(number(second))}] = rest
	case "fault":
		at := place{file, int(number(second))}
		a.refused[at] = append(a.refused[at], rest)
	default:
		at := place{file, int(number(first))}
		cut := strings.LastIndex(rest, " ")
		spelling, decl := rest[:cut], rest[cut+1:]
		if strings.HasSuffix(spelling, " package") {
			spelling, decl = strings.TrimSuffix(spelling, " package"), "package "+decl
		}
		if isRule(decl) {
			a.refused[at] = append(a.refused[at], decl)
			return
		}
		a.uses[at] = use{spelling, decl}
	}
}

// hasRule tells whether a rule refuses anything in the workspace.
func (a *answer) hasRule(rule string) bool {
	for _, rules := range a.refused {
		if has(rules, rule) {
			return true
		}
	}
	return false
}

// isRule tells whether an outcome is a rule.
func isRule(word string) bool {
	return len(word) >= 2 && len(word) <= 3 && word[0] >= 'A' && word[0] <= 'Z' && word[1] >= '0' && word[1] <= '9'
}

// onlyRefusals is set where the answers tell no more than what is refused.
var onlyRefusals bool

// A tally counts what agrees and what differs.
type tally struct {
	counts map[string]int
	first  map[string]string
	differ int
}

func (t *tally) add(what string) { t.counts[what]++ }

// note notes a difference.
func (t *tally) note(what, where string) {
	t.differ++
	t.counts["differ: "+what]++
	if t.first["differ: "+what] == "" {
		t.first["differ: "+what] = where
	}
}

// named notes a difference that is on purpose.
func (t *tally) named(what, where string) {
	t.counts["on purpose: "+what]++
	if t.first["on purpose: "+what] == "" {
		t.first["on purpose: "+what] = where
	}
}

// judged says what go/types says of an archive, or nothing where go/types panics: that of Go 1.19 does so on some packages with errors.
func judged(archive string) (j *judgement) {
	defer func() {
		if recover() != nil {
			j = nil
		}
	}()
	return judge(archive)
}

// compareAll compares the answers to archives.
func compareAll(answers string, files []string, show int) int {
	all, err := readAnswers(answers)
	if err != nil {
		fail(err)
	}
	t := &tally{map[string]int{}, map[string]string{}, 0}
	for _, file := range files {
		text, err := os.ReadFile(file)
		if err != nil {
			fail(err)
		}
		if all[file] == nil {
			fail(fmt.Errorf("no answer to %s", file))
		}
		if j := judged(string(text)); j != nil {
			t.compare(file, j, all[file])
		} else {
			t.named("an archive on which go/types panics", file)
		}
	}
	t.write(show)
	if t.differ > 0 {
		return 1
	}
	return 0
}

// write writes the counts, and of each difference the first place.
func (t *tally) write(show int) {
	var names []string
	for name := range t.counts {
		names = append(names, name)
	}
	sort.Strings(names)
	for _, name := range names {
		line := fmt.Sprintf("%s: %d", name, t.counts[name])
		if t.first[name] != "" && show > 0 {
			line += " (" + t.first[name] + ")"
		}
		fmt.Println(line)
	}
	fmt.Printf("%d differ\n", t.differ)
}

// isSoft tells whether an error is none here: of variables and imports that are not used.
func isSoft(odd oddity) bool { return odd.code == "UnusedVar" || odd.code == "UnusedImport" }

// hard gives the first error of a package that is one here.
func hard(errors []oddity) *oddity {
	for i := range errors {
		if !isSoft(errors[i]) {
			return &errors[i]
		}
	}
	return nil
}

// compare compares the answer to an archive, package by package.
func (t *tally) compare(file string, j *judgement, a *answer) {
	t.add("archives")
	where := func(at place) string { return file + " " + at.String() }
	compareImports := t.compareUnused
	if goList != nil {
		t.compareList(j, file)
		compareImports = t.compareImports
	}
	for _, from := range j.order {
		if !j.broken[from] {
			compareImports(j, a, from, hard(j.errors[from]) == nil, where)
		}
	}
	a.without("I7")
	for _, from := range j.order {
		t.add("packages")
		first := hard(j.errors[from])
		inPackage := func(at place) bool { return path.Dir(at.file) == from }
		if a.packages[from] == "" {
			t.note("no answer to a package", file+" "+from)
			continue
		}
		if j.broken[from] {
			t.compareBroken(j, a, from, inPackage, where)
			continue
		}
		if !strings.HasPrefix(j.form, "changed:") && !strings.HasPrefix(j.form, "imports:") {
			t.compareFaults(j, a, inPackage, where)
		} else if first == nil {
			t.compareOwn(a, j.isAboveRefused(from), inPackage, where)
		}
		if !onlyRefusals {
			t.compareNames(j, a, first == nil, inPackage, where)
		}
		if first == nil {
			if j.form == "worked" {
				t.compareLines(j, nil, a, inPackage, where)
			}
			t.add("packages that go/types accepts")
			if !onlyRefusals {
				t.compareValues(j, a, inPackage, where)
			}
		} else if j.form == "worked" {
			t.compareLines(j, j.errors[from], a, inPackage, where)
		} else {
			t.add("packages that go/types refuses")
			t.compareFirst(j, first, a, inPackage, file)
			t.compareAll(j.errors[from], a, inPackage)
		}
	}
}

// compareFaults compares what is refused with the faults that were put in.
func (t *tally) compareFaults(j *judgement, a *answer, inPackage func(place) bool, where func(place) string) {
	rule := strings.SplitN(j.form, ":", 2)[0]
	for at, rules := range j.put {
		for _, put := range rules {
			if inPackage(at) && !has(a.refused[at], put) {
				t.note(fmt.Sprintf("put in, and not answered: %s (%s)", put, j.form), where(at))
			} else if inPackage(at) {
				t.add("put in and answered: " + put)
			}
		}
	}
	for at, rules := range a.refused {
		for _, given := range rules {
			if inPackage(at) && !has(j.put[at], given) {
				t.note(fmt.Sprintf("answered, and not put in: %s (put in %s)", given, rule), where(at))
			}
		}
	}
}

// compareOwn tells which rules refuse a changed package that go/types accepts.
func (t *tally) compareOwn(a *answer, isAbove bool, inPackage func(place) bool, where func(place) string) {
	var rules []string
	at := place{}
	for one, given := range a.refused {
		if inPackage(one) {
			rules = append(rules, given...)
			at = one
		}
	}
	sort.Strings(rules)
	switch {
	case len(rules) == 0:
	case isAbove && isOnly(rules, "Y7 S4 C1 C4 F8"):
		t.named("a name of another package that has no type since it is refused there: "+strings.Join(rules, " "), where(at))
	case has(rules, "X1") || has(rules, "N7") || has(rules, "C3"):
		t.named("a changed package that go/types accepts is refused by "+strings.Join(rules, " "), where(at))
	default:
		t.note("a changed package that go/types accepts is refused by "+strings.Join(rules, " "), where(at))
	}
}

// isOnly tells whether all words are some of these.
func isOnly(words []string, only string) bool {
	for _, word := range words {
		if !has(strings.Fields(only), word) {
			return false
		}
	}
	return true
}

func has(words []string, word string) bool {
	for _, w := range words {
		if w == word {
			return true
		}
	}
	return false
}

// compareNames compares what identifiers and calls denote.
func (t *tally) compareNames(j *judgement, a *answer, isAccepted bool, inPackage func(place) bool, where func(place) string) {
	for at, told := range j.uses {
		if !inPackage(at) {
			continue
		}
		own, ok := a.uses[at]
		switch {
		case ok && own == told:
			t.add("names that agree")
		case ok && !isAccepted && a.hasRule("B6"):
			t.named("a method whose receiver is of no type that may have methods, which go/types finds all the same", where(at)+" "+told.decl+" "+own.decl)
		case ok && !isAccepted && a.hasRule("B2"):
			t.named("a name that the package declares and an import with a dot binds, of which go/types takes the import's", where(at)+" "+told.decl+" "+own.decl)
		case ok:
			t.note("a name denotes something else: "+kindOfDecl(told.decl)+" by go/types, "+kindOfDecl(own.decl)+" by govisd", where(at)+" "+told.decl+" "+own.decl)
		case len(a.refused[at]) > 0:
			t.add("names that go/types alone resolves, refused by " + strings.Join(a.refused[at], " "))
		case j.unused(path.Dir(at.file))[at]:
			t.add("imports that are not used, which have no package")
		case isAccepted:
			t.note("a name has no answer", where(at)+" "+told.spelling)
		default:
			t.add("names that go/types alone resolves in a refused package")
		}
	}
	for at, own := range a.uses {
		if _, ok := j.uses[at]; ok || !inPackage(at) {
			continue
		}
		if isAccepted {
			t.note("go/types has no declaration for a name", where(at)+" "+own.spelling+" "+own.decl)
		} else {
			t.add("names that govisd alone resolves in a refused package")
		}
	}
}

// kindOfDecl tells where a declaration is.
func kindOfDecl(decl string) string {
	switch {
	case strings.HasPrefix(decl, "universe."):
		return decl
	case strings.HasPrefix(decl, "package "):
		return "a package"
	}
	return "a declaration"
}

// compareValues compares the paths of selectors and the values of constants.
func (t *tally) compareValues(j *judgement, a *answer, inPackage func(place) bool, where func(place) string) {
	for at, told := range j.paths {
		if !inPackage(at) || len(a.refused[at]) > 0 {
			continue
		}
		switch own, ok := a.paths[at]; {
		case !ok:
			t.note("a selector has no path", where(at))
		case own != told:
			t.note("a selector has another path", where(at)+" "+told+" "+own)
		default:
			t.add("selectors with the same path")
			if told != "[]" {
				t.add("of these through embedded fields")
			}
		}
	}
	for at := range a.paths {
		if _, ok := j.paths[at]; !ok && inPackage(at) {
			t.note("go/types has no path for a selector", where(at))
		}
	}
	isBehindX1 := a.hasRule("X1")
	for at, told := range j.consts {
		if !inPackage(at) {
			continue
		}
		switch own, ok := a.consts[at]; {
		case ok && own == told:
			t.add("constants of the same value")
		case ok:
			t.note("a constant has another value", where(at)+" "+told+" "+own)
		case j.outer[at] && isBehindX1:
			t.named("a constant has no value where X1 refuses a constant", where(at))
		case j.outer[at]:
			t.note("a constant has no value", where(at))
		default:
			t.add("constants of functions and initialisers that test_cases does not show")
		}
	}
	for at := range a.consts {
		if _, ok := j.consts[at]; !ok && inPackage(at) {
			t.note("go/types has no value for a constant", where(at))
		}
	}
}

// compareAll counts the errors of a package where a fault of ours stands, and the others.
func (t *tally) compareAll(errors []oddity, a *answer, inPackage func(place) bool) {
	for i := range errors {
		if isSoft(errors[i]) {
			continue
		}
		isFound := false
		for _, form := range table[errors[i].code] {
			if _, ok := form.matches(&errors[i], a, inPackage); ok {
				isFound = true
			}
		}
		if isFound {
			t.add("errors of go/types, the first and others, where a fault stands")
		} else {
			t.add("errors of go/types where no fault stands")
		}
	}
}

// compareFirst finds a fault of ours where the first error of go/types stands.
func (t *tally) compareFirst(j *judgement, first *oddity, a *answer, inPackage func(place) bool, file string) {
	rules := table[first.code]
	for _, form := range rules {
		if _, ok := form.matches(first, a, inPackage); ok {
			t.add("first errors where a fault stands: " + first.code + " " + form.rule)
			return
		}
	}
	if own, ok := a.uses[first.at]; ok && first.code == "MissingFieldOrMethod" && j.isBehindLatePointer(first) {
		t.named("a field behind a pointer type that is defined by the name of another, which Go 1.19 does not find", file+" "+first.at.String()+" "+own.decl)
		return
	}
	if has([]string{"InvalidInitDecl", "InvalidMainDecl"}, first.code) && first.isOfBare() {
		t.named("an empty list of results, which go/types of Go 1.19 takes for results", file+" "+first.at.String())
		return
	}
	// what X1 and N7 refuse go/types takes, and goes on to what it is given to
	for _, rule := range []string{"X1", "N7"} {
		if at, ok := (form{rule, "near"}).matches(first, a, inPackage); ok {
			t.named("an error of go/types about what "+rule+" refuses: "+first.code, file+" "+at.String())
			return
		}
	}
	if first.code == "DivByZero" && a.isRefusedBy("X1", inPackage) {
		t.named("a division by a constant that has no value where X1 refuses it", file+" "+first.at.String())
		return
	}
	if _, ok := (form{"Y7", "near"}).matches(first, a, inPackage); ok && strings.HasPrefix(j.form, "Y7:(int(-9223372036854775807)_-_1)_/_-1") {
		t.named("an error of go/types about a quotient that wraps in 64 bits for it, which Y7 refuses", file+" "+first.at.String())
		return
	}
	if j.isAboveRefused(path.Dir(first.at.file)) {
		t.named("an error of go/types that follows from what another package refuses: "+first.code, file+" "+first.at.String())
		return
	}
	var near []string
	for at, given := range a.refused {
		if inPackage(at) {
			near = append(near, strconv.Itoa(at.offset)+strings.Join(given, ","))
		}
	}
	sort.Strings(near)
	t.note(fmt.Sprintf("no fault where go/types has %s (%s)", first.code, j.form), fmt.Sprintf("%s %s %s %v", file, first.at, first.text, near))
}

// isRefusedBy tells whether a fault of a rule stands in a package.
func (a *answer) isRefusedBy(rule string, inPackage func(place) bool) bool {
	for at, given := range a.refused {
		if inPackage(at) && has(given, rule) {
			return true
		}
	}
	return false
}
