package main

import (
	"fmt"
	"go/ast"
	"math/rand"
	"path"
	"regexp"
	"sort"
	"strings"
)

// A spread is a workspace of several packages that is made, as texts by their places.
type spread struct {
	r     *rand.Rand
	root  string // the path that all its packages lie at or below
	made  []*made
	texts map[string]string
	put   []string
}

// letters tell the packages of a workspace apart: the names that a package declares end with its own.
const letters = "ABCDEFGHIJKL"

// lettered gives the names of a pool with a letter behind each.
func (p pool) lettered(letter string) pool {
	with := func(words []string) []string {
		var found []string
		for _, word := range words {
			found = append(found, word+letter)
		}
		return found
	}
	return pool{with(p.types), with(p.funcs), with(p.consts), with(p.vars)}
}

// mayImport is the rule of internal directories of `go help gopath`: what lies in or below a folder `internal` may be imported from its parent and below.
func mayImport(from, to string) bool {
	elements := strings.Split(to, "/")
	for at, element := range elements {
		above := strings.Join(elements[:at], "/")
		if element == "internal" && from != above && !strings.HasPrefix(from, above+"/") {
			return false
		}
	}
	return true
}

// somePath chooses a path for a package: at the root, below it, below another package, at and below folders `internal`.
func (s *spread) somePath(letter string, isFirst bool) string {
	if isFirst && s.r.Intn(5) == 0 {
		return s.root
	}
	above := s.root
	if len(s.made) > 0 && s.r.Intn(2) == 0 {
		above = s.made[s.r.Intn(len(s.made))].path
	}
	name := []string{"lib", "part", "kit-", "v1."}[s.r.Intn(4)] + letter
	switch s.r.Intn(8) {
	case 0, 1:
		return above + "/internal/" + name
	case 2:
		return above + "/" + name + "/internal"
	}
	return above + "/" + name
}

// importable chooses some of the packages that a path may import.
func (s *spread) importable(from string) []*made {
	var found []*made
	for _, at := range s.r.Perm(len(s.made)) {
		if len(found) < 5 && mayImport(from, s.made[at].path) && s.r.Intn(3) > 0 {
			found = append(found, s.made[at])
		}
	}
	return found
}

// clauseOf chooses the name in the clauses of a package, often another than the last element of its path.
func (s *spread) clauseOf(from, letter string) string {
	if last := path.Base(from); strings.HasSuffix(last, letter) && !strings.ContainsAny(last, "-.") && s.r.Intn(2) == 0 {
		return last
	}
	return []string{"lib", "kit"}[s.r.Intn(2)] + letter
}

// makeSpread makes a workspace of 2 to 12 packages, one of them with a mistake where one is given.
func makeSpread(r *rand.Rand, root string, wrong *mistake) *spread {
	s := &spread{r: r, root: root, texts: map[string]string{}}
	count := 2 + r.Intn(1+r.Intn(len(letters)-1)) // few more often than many
	chosen := r.Intn(count)
	for n := 0; n < count; n++ {
		letter := letters[n : n+1]
		from := s.somePath(letter, n == 0)
		var own *mistake
		if n == chosen {
			own = wrong
		}
		m := makePackage(r, from, s.clauseOf(from, letter), []pool{libNames, ownNames}[r.Intn(2)].lettered(letter), s.importable(from), own)
		for _, f := range m.files {
			for at := range f.pieces {
				f.pieces[at] = strings.ReplaceAll(f.pieces[at], "\"ex.com/", "\""+root+"/")
			}
		}
		s.made = append(s.made, m)
	}
	return s
}

// write writes the texts, with the places of the faults that were put in.
func (s *spread) write() {
	s.put = nil
	for _, m := range s.made {
		for _, f := range m.files {
			text, put := m.final(f)
			if !isInGrammar(text) {
				fail(fmt.Errorf("outside the grammar:\n%s", text))
			}
			s.texts[m.path+"/"+f.name] = text
			s.put = append(s.put, put...)
		}
		if m.wrong != nil && m.wrong.aid {
			cut := strings.Index(aidText, "\n") + 1
			s.texts[s.root+"/aid/aid.go"] = aidText[cut:]
		}
	}
}

// places gives the places of the files in order.
func (s *spread) places() []string {
	var found []string
	for place := range s.texts {
		found = append(found, place)
	}
	sort.Strings(found)
	return found
}

// archive is the workspace as an archive.
func (s *spread) archive(form string) string {
	var out strings.Builder
	fmt.Fprintf(&out, "form %s\n", form)
	for _, line := range s.put {
		fmt.Fprintln(&out, line)
	}
	for _, place := range s.places() {
		fmt.Fprintf(&out, "-- %s --\n%s", place, s.texts[place])
	}
	return out.String()
}

var importedPath = regexp.MustCompile(`^"([^"]+)"`)

// settle makes imports blank that are not used.
func (s *spread) settle() {
	j := judge(s.archive("correct"))
	for _, m := range s.made {
		for _, odd := range j.errors[m.path] {
			found := importedPath.FindStringSubmatch(odd.text)
			if odd.code != "UnusedImport" || found == nil {
				continue
			}
			for _, f := range m.files {
				for at, other := range f.targets {
					if m.path+"/"+f.name == odd.at.file && other.path == found[1] {
						f.imports[at] = fmt.Sprintf("import _ %q", other.path)
					}
				}
			}
		}
	}
	s.write()
}

// hidden are names of qualifiers that locals may hide.
var hidden = []string{"libA", "kitA", "libB", "kitB", "qA", "qB", "partC", "qC"}

// severalText makes the archive of a workspace: of eight three are correct, one has a mistake, two are changed at one place, one in what a package shows
// to others, and one in its imports or clauses.
func severalText(seed int64, n int) (string, string) {
	r := rand.New(rand.NewSource(seed))
	var wrong *mistake
	form := "correct"
	if n%8 == 3 {
		for turn := n / 8; wrong == nil || strings.Contains(wrong.outer, "ex.com/lib"); turn++ {
			wrong = mistakes[(turn*7)%len(mistakes)]
		}
		form = wrong.name
	}
	s := makeSpread(r, fmt.Sprintf("ex.com/w%05d", n), wrong)
	s.write()
	if wrong == nil && r.Intn(4) > 0 {
		s.settle()
	}
	switch n % 8 {
	case 4, 5:
		all := s.places()
		place := all[r.Intn(len(all))]
		form, s.texts[place] = mutate(r, s.texts[place], n/8*2+n%2)
	case 6:
		form = s.change(shownChanges, n/8)
	case 7:
		form = s.change(importChanges, n/8)
	}
	return form, s.archive(form)
}

// A spreadChange is a way to change a workspace: it answers whether it could.
type spreadChange struct {
	name  string
	apply func(s *spread) bool
}

// change changes a workspace in one of the ways in turn, or in another where that cannot be.
func (s *spread) change(ways []spreadChange, turn int) string {
	before := map[string]string{}
	for place, text := range s.texts {
		before[place] = text
	}
	for way := range ways {
		one := ways[(turn+way)%len(ways)]
		for try := 0; try < 30; try++ {
			if one.apply(s) && s.isChanged(before) && s.isInGrammar(one.name) {
				return one.name
			}
			for place := range s.texts {
				delete(s.texts, place)
			}
			for place, text := range before {
				s.texts[place] = text
			}
		}
	}
	return "unchanged"
}

func (s *spread) isChanged(before map[string]string) bool {
	for place, text := range s.texts {
		if before[place] != text {
			return true
		}
	}
	return false
}

// isInGrammar tells whether all texts are of the grammar, but for the one that a syntax error is put into, and for paths that no import may have.
func (s *spread) isInGrammar(form string) bool {
	if form == "imports:syntax" || form == "imports:malformed" {
		return true
	}
	for _, text := range s.texts {
		if !isInGrammar(text) {
			return false
		}
	}
	return true
}

// shown chooses a package that others import.
func (s *spread) shown() *made {
	var found []*made
	for _, m := range s.made {
		found = append(found, m.others...)
	}
	if len(found) == 0 {
		return s.made[0]
	}
	return found[s.r.Intn(len(found))]
}

// someFile chooses a file of a package, as its place.
func (s *spread) someFile(m *made) string { return m.path + "/" + m.file().name }

// rename spells a name otherwise in all files of a package.
func (s *spread) rename(m *made, old, new string) {
	for _, f := range m.files {
		place := m.path + "/" + f.name
		text := s.texts[place]
		all := lexemes(text)
		for at := len(all) - 1; at >= 0; at-- {
			if isName(all[at]) && all[at].text == old {
				text = replaced(text, all[at], new)
			}
		}
		s.texts[place] = text
	}
}

// exportedOf chooses an exported name of a package's block.
func (s *spread) exportedOf(m *made) string {
	var found []string
	for _, e := range m.list {
		if ast.IsExported(e.name) {
			found = append(found, e.name)
		}
	}
	if len(found) == 0 {
		return ""
	}
	return found[s.r.Intn(len(found))]
}

// lowered is a name that is not exported.
func lowered(name string) string { return "x" + name }

var (
	receiver   = regexp.MustCompile(`(?m)^func \((?:[\pL_]+ )?(\*?)[\pL]+\)`)
	importLine = regexp.MustCompile(`(?m)^import (\(\n\tq\w* )?([\w.]+ )?("[^"\n]+")(\n\))?\n`)
	basicType  = regexp.MustCompile(`\b(int|string|bool)\b`)
)

// edit changes one of the matches in a file of a package.
func (s *spread) edit(m *made, at *regexp.Regexp, change func(found []string) string) bool {
	place := s.someFile(m)
	text := s.texts[place]
	all := at.FindAllStringSubmatchIndex(text, -1)
	if len(all) == 0 {
		return false
	}
	one := all[s.r.Intn(len(all))]
	var found []string
	for i := 0; i < len(one); i += 2 {
		word := ""
		if one[i] >= 0 {
			word = text[one[i]:one[i+1]]
		}
		found = append(found, word)
	}
	s.texts[place] = text[:one[0]] + change(found) + text[one[1]:]
	return true
}

// some chooses a package.
func (s *spread) some() *made { return s.made[s.r.Intn(len(s.made))] }

// shownChanges change what a package shows to those that import it, or how a file imports it.
var shownChanges = []spreadChange{
	{"changed:lowered", func(s *spread) bool {
		m := s.shown()
		name := s.exportedOf(m)
		s.rename(m, name, lowered(name))
		return name != ""
	}},
	{"changed:renamed", func(s *spread) bool {
		m := s.shown()
		name := s.exportedOf(m)
		s.rename(m, name, name+"Z")
		return name != ""
	}},
	{"changed:field", func(s *spread) bool {
		m := s.shown()
		name := m.one("N", "Left", "Right")
		s.rename(m, name, lowered(name))
		return true
	}},
	{"changed:method", func(s *spread) bool {
		m := s.shown()
		name := m.one("M", "Get", "Len", "Sum", "String")
		s.rename(m, name, lowered(name))
		return true
	}},
	{"changed:type", func(s *spread) bool {
		return s.edit(s.shown(), basicType, func(found []string) string { return s.shown().one("int", "string", "bool", "any", "error") })
	}},
	{"changed:receiver", func(s *spread) bool {
		return s.edit(s.shown(), receiver, func(found []string) string {
			if found[1] == "*" {
				return strings.Replace(found[0], "*", "", 1)
			}
			cut := strings.LastIndexAny(found[0], " (") + 1
			return found[0][:cut] + "*" + found[0][cut:]
		})
	}},
	{"changed:selected", func(s *spread) bool {
		m := s.some()
		other := s.shown()
		if len(other.list) == 0 {
			return false
		}
		name := other.list[s.r.Intn(len(other.list))].name
		place := s.someFile(m)
		all := lexemes(s.texts[place])
		for try := 0; try < 100; try++ {
			at := s.r.Intn(len(all))
			if at > 1 && isName(all[at]) && all[at-1].text == "." && isName(all[at-2]) {
				s.texts[place] = replaced(s.texts[place], all[at], name)
				return true
			}
		}
		return false
	}},
	{"changed:left_out", func(s *spread) bool {
		return s.edit(s.some(), importLine, func(found []string) string { return "" })
	}},
	{"changed:blank", func(s *spread) bool {
		return s.edit(s.some(), importLine, func(found []string) string { return "import _ " + found[3] + "\n" })
	}},
	{"changed:dotted", func(s *spread) bool {
		return s.edit(s.some(), importLine, func(found []string) string { return "import . " + found[3] + "\n" })
	}},
	{"changed:unnamed", func(s *spread) bool {
		return s.edit(s.some(), importLine, func(found []string) string { return "import " + found[3] + "\n" })
	}},
	{"changed:twice", func(s *spread) bool {
		return s.edit(s.some(), importLine, func(found []string) string { return found[0] + found[0] })
	}},
	{"changed:other", func(s *spread) bool {
		other := s.some()
		return s.edit(s.some(), importLine, func(found []string) string {
			return strings.Replace(found[0], found[3], fmt.Sprintf("%q", other.path), 1)
		})
	}},
}

var clauseLine = regexp.MustCompile(`(?m)^package (\S+)\n`)

// addImport puts an import first in a file.
func (s *spread) addImport(place, spec string) {
	text := s.texts[place]
	cut := clauseLine.FindStringIndex(text)[1]
	s.texts[place] = text[:cut] + "\nimport " + spec + "\n" + text[cut:]
}

// addUse puts a use of a name behind a qualifier last in a file.
func (s *spread) addUse(place, qualified string) {
	if s.r.Intn(2) == 0 {
		s.texts[place] += "\nvar used9 " + qualified + "\n"
	} else {
		s.texts[place] += "\nfunc used9() {\n\t_ = " + qualified + "\n}\n"
	}
}

// addPath makes a file of a package import a path, in one of all forms.
func (s *spread) addPath(m *made, to string, written string) {
	place := s.someFile(m)
	switch s.r.Intn(5) {
	case 0:
		s.addImport(place, "_ "+written)
	case 1:
		s.addImport(place, ". "+written)
	case 2:
		s.addImport(place, "n9 "+written)
		s.addUse(place, "n9.X")
	case 3:
		s.addImport(place, written)
		s.addUse(place, path.Base(to)+".X")
		if strings.ContainsAny(path.Base(to), "-.") {
			return
		}
	case 4:
		s.addImport(place, written)
	}
}

// reaches tells whether imports lead from a package to another.
func (m *made) reaches(other *made) bool {
	for _, next := range m.others {
		if next == other || next.reaches(other) {
			return true
		}
	}
	return false
}

// pair chooses two packages that fit.
func (s *spread) pair(fits func(from, to *made) bool) (*made, *made, bool) {
	for try := 0; try < 40; try++ {
		from, to := s.some(), s.some()
		if from != to && fits(from, to) {
			return from, to, true
		}
	}
	return nil, nil, false
}

// clauses changes the clauses of so many of a package's last files.
func (s *spread) clauses(m *made, count int, name string) {
	for _, f := range m.files[len(m.files)-count:] {
		place := m.path + "/" + f.name
		s.texts[place] = clauseLine.ReplaceAllString(s.texts[place], "package "+name+"\n")
	}
}

// importChanges are errors of imports, and packages that do not assemble.
var importChanges = []spreadChange{
	{"imports:cycle", func(s *spread) bool {
		from, to, ok := s.pair(func(from, to *made) bool { return to.reaches(from) && mayImport(from.path, to.path) })
		if ok {
			s.addPath(from, to.path, fmt.Sprintf("%q", to.path))
		}
		return ok
	}},
	{"imports:internal", func(s *spread) bool {
		from, to, ok := s.pair(func(from, to *made) bool { return !mayImport(from.path, to.path) })
		if ok {
			s.addPath(from, to.path, fmt.Sprintf("%q", to.path))
		}
		return ok
	}},
	{"imports:missing", func(s *spread) bool {
		to := []string{s.root + "/none9", s.root + "/a/b/none9", "ex.com/none9"}[s.r.Intn(3)]
		s.addPath(s.some(), to, fmt.Sprintf("%q", to))
		return true
	}},
	{"imports:main", func(s *spread) bool {
		m := s.shown()
		s.clauses(m, len(m.files), "main")
		return true
	}},
	{"imports:clause", func(s *spread) bool {
		m := s.shown()
		if len(m.files) < 2 {
			return false
		}
		s.clauses(m, 1, "other9")
		return true
	}},
	{"imports:self", func(s *spread) bool {
		m := s.some()
		s.addPath(m, m.path, fmt.Sprintf("%q", m.path))
		return true
	}},
	{"imports:syntax", func(s *spread) bool {
		m := s.shown()
		place := s.someFile(m)
		s.texts[place] += m.one("\nfunc (\n", "\nvar x9 = = 1\n", "\nfunc f9() {\n", "}\n", "\ntype T9 struct{ a, }\n", "\nfunc f9() { return ) }\n")
		return true
	}},
	{"imports:unused", func(s *spread) bool {
		from, to, ok := s.pair(func(from, to *made) bool { return mayImport(from.path, to.path) && !to.reaches(from) })
		if ok {
			s.addImport(s.someFile(from), []string{"", "n9 ", ". "}[s.r.Intn(3)]+fmt.Sprintf("%q", to.path))
		}
		return ok
	}},
	{"imports:blank_clause", func(s *spread) bool {
		m := s.shown()
		s.clauses(m, 1, "_")
		return true
	}},
	{"imports:standard", func(s *spread) bool {
		place := s.someFile(s.some())
		s.addImport(place, "\"strings\"")
		s.addUse(place, "strings.Builder")
		return true
	}},
	{"imports:malformed", func(s *spread) bool {
		m := s.some()
		to := m.one("", "a b", "./x", "ex.com//x", "/ex.com", s.root+"/", "ex.com/a!", "ex.com\\x5ca", "ex.com/\\u00e9")
		s.addPath(m, "n", "\""+to+"\"")
		return true
	}},
	{"imports:declared", func(s *spread) bool {
		from, to, ok := s.pair(func(from, to *made) bool {
			return mayImport(from.path, to.path) && !to.reaches(from) && len(from.list) > 0
		})
		if ok {
			s.addImport(s.someFile(from), from.list[s.r.Intn(len(from.list))].name+fmt.Sprintf(" %q", to.path))
		}
		return ok
	}},
	{"imports:same_name", func(s *spread) bool {
		from, to, ok := s.pair(func(from, to *made) bool {
			return mayImport(from.path, to.path) && !to.reaches(from) && len(from.others) > 0
		})
		if ok {
			s.addImport(s.someFile(from), from.others[0].clause+fmt.Sprintf(" %q", to.path))
		}
		return ok
	}},
}
