package main

import (
	"fmt"
	"go/scanner"
	"go/types"
	"path"
	"sort"
	"strconv"
	"strings"
)

// What the go command refuses in the archives, where they are workspaces that `govisd check` answered.
var goList *listing

// An importer is a package that imports others.
type importer struct {
	j    *judgement
	from string
}

// Import refuses what the go command refuses, and checks any other package, once.
func (i importer) Import(to string) (*types.Package, error) {
	if rule := i.j.refused[i.from][to]; rule != "" {
		return nil, fmt.Errorf("refused by %s", rule)
	}
	return i.j.Import(to)
}

// An edge is an import of a file.
type edge struct {
	at   place
	line string // FILE:LINE
	to   string
}

// edges gives the imports of a package.
func (j *judgement) edges(from string) []edge {
	var found []edge
	for _, tree := range j.trees[from] {
		for _, spec := range tree.Imports {
			position := j.fset.Position(spec.Pos())
			if to, err := strconv.Unquote(spec.Path.Value); err == nil {
				found = append(found, edge{j.place(spec.Path.Pos()), fmt.Sprintf("%s:%d", position.Filename, position.Line), to})
			}
		}
	}
	return found
}

// isBroken tells whether the files of a package are no package for Go: one does not parse, or their clauses have several names or the name `_`.
func (j *judgement) isBroken(from string) bool {
	names := map[string]bool{}
	for _, tree := range j.trees[from] {
		names[tree.Name.Name] = true
	}
	return len(j.errors[from]) > 0 || names["_"] || len(names) > 1
}

// isOfPaths tells whether the parser's errors are about paths of imports alone. It has a tree all the same, and go/types refuses them.
func isOfPaths(err error) bool {
	all, ok := err.(scanner.ErrorList)
	for _, one := range all {
		ok = ok && strings.HasPrefix(one.Msg, "invalid import path")
	}
	return ok
}

// refuseImports finds the imports that Go refuses: those of the go command, those of packages that are none, and those on cycles.
func (j *judgement) refuseImports() {
	j.refused, j.broken = map[string]map[string]string{}, map[string]bool{}
	var all []string
	for from := range j.packages() {
		all = append(all, from)
		j.refused[from] = map[string]string{}
		if j.isBroken(from) {
			j.broken[from] = true
		}
	}
	sort.Strings(all)
	for _, from := range all {
		for _, one := range j.edges(from) {
			rule := goList.imports[one.line]
			switch {
			case rule != "":
			case !j.packages()[one.to]:
				rule = "I2"
			case j.broken[one.to]:
				rule = "I6"
			}
			if rule != "" {
				j.refused[from][one.to] = rule
			}
		}
	}
	for _, from := range all {
		for _, one := range j.edges(from) {
			if j.refused[from][one.to] == "" && !j.broken[from] && j.leads(one.to, from, map[string]bool{}) {
				j.refused[from][one.to] = "I4"
			}
		}
	}
}

// leads tells whether imports lead from a package to another, or it is the same. Those that lie on cycles count.
func (j *judgement) leads(from, to string, seen map[string]bool) bool {
	if from == to {
		return true
	}
	if seen[from] {
		return false
	}
	seen[from] = true
	for _, one := range j.edges(from) {
		if rule := j.refused[from][one.to]; (rule == "" || rule == "I4") && j.leads(one.to, to, seen) {
			return true
		}
	}
	return false
}

// packages gives the paths of all packages.
func (j *judgement) packages() map[string]bool {
	found := map[string]bool{}
	for file := range j.texts {
		found[path.Dir(file)] = true
	}
	return found
}

// unused gives the places of the imports of a package that go/types says are not used.
func (j *judgement) unused(from string) map[place]bool {
	unused := map[place]bool{}
	for _, odd := range j.errors[from] {
		for _, n := range odd.nodes {
			if odd.code == "UnusedImport" && n.kind == "ImportSpec" {
				unused[n.second] = true
			}
		}
	}
	return unused
}

// ofImport gives the rule of imports that refuses the one at a place.
func (a *answer) ofImport(at place) string {
	given := ""
	for _, rule := range a.refused[at] {
		if strings.HasPrefix(rule, "I") {
			given = rule
		}
	}
	return given
}

// compareImports compares which imports are refused, and which are not used.
func (t *tally) compareImports(j *judgement, a *answer, from string, isAccepted bool, where func(place) string) {
	unused := j.unused(from)
	for _, one := range j.edges(from) {
		t.compareImport(j, one, j.refused[from][one.to], a.ofImport(one.at), unused[one.at], isAccepted, where(one.at))
	}
}

// compareUnused compares which imports are not used of those that pass, where the go command is not asked which do.
func (t *tally) compareUnused(j *judgement, a *answer, from string, isAccepted bool, where func(place) string) {
	unused := j.unused(from)
	for _, one := range j.edges(from) {
		if given := a.ofImport(one.at); given == "I7" || given == "" && unused[one.at] {
			t.compareImport(j, one, "", given, unused[one.at], isAccepted, where(one.at))
		}
	}
}

// compareImport compares what is said of an import.
func (t *tally) compareImport(j *judgement, one edge, wanted, given string, isUnused, isAccepted bool, where string) {
	if given == "I7" || wanted == "" && isUnused {
		switch {
		case given == "I7" && isUnused:
			t.add("imports that both refuse as not used")
		case wanted != "" || isAccepted:
			t.note("an import is not used for one of the two: "+orNone(wanted)+" by Go, "+orNone(given)+" by govisd", where)
		case given == "I7":
			t.named("an import that is used by refused names alone (I7)", where)
		default:
			t.named("an import whose uses go/types does not come to in a refused package", where)
		}
		return
	}
	switch {
	case wanted == given && given == "I6":
		t.named("an import of a package that does not assemble, which the go command and go/types refuse there alone (I6)", where)
	case wanted == given && given == "I2" && !strings.HasPrefix(one.to, above):
		t.named("an import of a path that no package of the workspace has (I2)", where)
	case wanted == given && given != "":
		t.add("imports that both refuse: " + given)
	case wanted == given:
		t.add("imports that both let pass")
	case wanted == "I2" && (given == "I1" || given == "I3"):
		t.named("an import that the go command does not find, and "+given+" refuses", where)
	default:
		t.note("an import is refused otherwise: "+orNone(wanted)+" by Go, "+orNone(given)+" by govisd", where)
	}
}

func orNone(rule string) string {
	if rule == "" {
		return "none"
	}
	return rule
}

// compareBroken compares a package whose files are none for Go: they must be none for govisd, and have no other fault.
func (t *tally) compareBroken(j *judgement, a *answer, from string, inPackage func(place) bool, where func(place) string) {
	t.add("packages that do not assemble")
	found := map[string]bool{}
	for at, rules := range a.refused {
		for _, rule := range rules {
			if inPackage(at) {
				found[rule] = true
				if !strings.Contains("K L P", rule[:1]) {
					t.note("a package that does not assemble has a fault "+rule, where(at))
				}
			}
		}
	}
	first := hard(j.errors[from])
	for _, form := range table[first.code] {
		if _, ok := form.matches(first, a, inPackage); ok {
			t.add("packages that do not assemble, with a fault where Go's first error stands: " + first.code + " " + form.rule)
			return
		}
	}
	t.note("no fault where Go has "+first.code, where(first.at)+" "+first.text+" "+fmt.Sprint(found))
}

// compareList holds the cycles of the workspace against what the go command says: it names a package of each.
func (t *tally) compareList(j *judgement, file string) {
	isOnCycle, isNamed := false, false
	for from, all := range j.refused {
		for _, rule := range all {
			isOnCycle = isOnCycle || rule == "I4"
		}
		isNamed = isNamed || goList.packages["cycle "+from]
	}
	if isOnCycle && !isNamed {
		t.note("a cycle that the go command does not name", file)
	} else if isNamed && !isOnCycle {
		t.named("a cycle of the go command through an import that it refuses for another reason", file)
	}
	if isOnCycle && isNamed {
		t.add("workspaces with cycles that the go command names")
	}
}

// without takes a rule out of what is refused.
func (a *answer) without(prefix string) {
	for at, rules := range a.refused {
		var kept []string
		for _, rule := range rules {
			if !strings.HasPrefix(rule, prefix) {
				kept = append(kept, rule)
			}
		}
		if len(kept) == 0 {
			delete(a.refused, at)
			continue
		}
		a.refused[at] = kept
	}
}

// assumed gives faults of a package that docs/RULES.md allows where Go says what it says: those that were put in, those of its imports, and one where Go's first
// error stands.
func (j *judgement) assumed(from string) map[place][]string {
	found := map[place][]string{}
	add := func(at place, rule string) {
		if !has(found[at], rule) {
			found[at] = append(found[at], rule)
		}
	}
	for at, rules := range j.put {
		if path.Dir(at.file) == from {
			found[at] = append(found[at], rules...)
		}
	}
	if first := hard(j.errors[from]); first != nil && len(found) == 0 {
		add(first.assumed())
	}
	if j.broken[from] {
		return found
	}
	for _, one := range j.edges(from) {
		if rule := j.refused[from][one.to]; rule != "" {
			add(one.at, rule)
		}
	}
	for _, odd := range j.errors[from] {
		if odd.code == "UnusedImport" {
			for _, n := range odd.nodes {
				if n.kind == "ImportSpec" && j.errors[from] != nil {
					add(n.second, "I7")
				}
			}
		}
	}
	return found
}

// assumed gives a place and a rule that stand for an error of go/types.
func (odd *oddity) assumed() (place, string) {
	for _, form := range table[odd.code] {
		places := []place{odd.at, odd.start}
		for _, n := range odd.nodes {
			places = append(places, n.at, n.second, n.third)
		}
		for _, at := range places {
			if form.stands(odd, at) {
				return at, form.rule
			}
		}
	}
	return odd.at, "T0"
}

// isAboveRefused tells whether a package of the workspace reaches one by imports in which go/types has errors.
func (j *judgement) isAboveRefused(from string) bool {
	seen := map[string]bool{from: true}
	var above func(from string) bool
	above = func(from string) bool {
		for _, one := range j.edges(from) {
			if seen[one.to] {
				continue
			}
			seen[one.to] = true
			if hard(j.errors[one.to]) != nil || above(one.to) {
				return true
			}
		}
		return false
	}
	return goList != nil && above(from)
}
