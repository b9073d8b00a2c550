package main

import (
	"fmt"
	"os"
	"path/filepath"
	"sort"
	"strconv"
	"strings"
)

// A refusal is a piece that only govisd refuses: the rule, the package, the names of the declaration, its file and its first byte and that behind it, and why.
type refusal struct {
	rule, from, name, file string
	start, end             int
	why                    string
}

// ruleOf is the rule that stands in parentheses at the end of a reason.
func ruleOf(why string) string {
	return strings.TrimSuffix(why[strings.LastIndex(why, "(")+1:], ")")
}

// ownList is the file with what only govisd refuses of the packages of a folder.
func ownList(folder string) string { return folder + "_own.txt" }

// writeOwn writes what only govisd refuses, a line each with tabs between the parts, and gives the name of the file.
func (r *reducer) writeOwn(folder string) string {
	var lines []string
	for _, one := range r.alone {
		lines = append(lines, fmt.Sprintf("%s\t%s\t%s\t%s\t%d\t%d\t%s\n", one.rule, one.from, one.name, one.file, one.start, one.end, one.why))
	}
	sort.Strings(lines)
	if err := os.WriteFile(ownList(folder), []byte(strings.Join(lines, "")), 0o666); err != nil {
		fail(err)
	}
	return ownList(folder)
}

// readOwn reads what writeOwn wrote.
func readOwn(folder string) []refusal {
	text, err := os.ReadFile(ownList(folder))
	if err != nil {
		fail(err)
	}
	var found []refusal
	for _, line := range strings.Split(strings.TrimSuffix(string(text), "\n"), "\n") {
		if words := strings.Split(line, "\t"); len(words) == 7 {
			start, _ := strconv.Atoi(words[4])
			end, _ := strconv.Atoi(words[5])
			found = append(found, refusal{words[0], words[1], words[2], words[3], start, end, words[6]})
		}
	}
	return found
}

// ownRules are rules that Go does not have. What the reducer does not see of them is named, and not a difference.
var ownRules = []string{"X1", "N7"}

// text names a fault by its rule, its package and the declaration in which it stands.
func (one told) text(folder string) string {
	name := namesAt(filepath.Join(folder, one.File), one.Offset)
	return fmt.Sprintf("%s %s %s: %s:%d:%d %s", one.Rule, one.Package, name, one.File, one.Line, one.Column, one.Meaning)
}

// checkReduced checks a workspace that was reduced, and names each fault in it by its package and declaration. What the program could not take, or says
// otherwise, is a difference too.
func checkReduced(program, folder, module string) int {
	faults, said, status := runCheck(program, folder, module, folder)
	if status != 0 && status != 1 {
		fail(fmt.Errorf("%s: status %d: %s", folder, status, said))
	}
	named, differ := 0, 0
	for _, one := range faults {
		what := "differs"
		if has(ownRules, one.Rule) {
			what = "on purpose"
			named++
		} else {
			differ++
		}
		fmt.Printf("%s: %s\n", what, one.text(folder))
	}
	for _, line := range strings.Split(strings.TrimSpace(said), "\n") {
		if line != "" {
			fmt.Println("differs: not taken:", line)
			differ++
		}
	}
	if isWanted := len(faults) > 0 || said != ""; (status == 1) != isWanted {
		fmt.Printf("differs: the status is %d\n", status)
		differ++
	}
	fmt.Printf("faults on purpose: %d, that differ: %d\n", named, differ)
	if differ > 0 {
		return 1
	}
	return 0
}

// A cut is a file before and after what only govisd refuses is left out of it.
type cut struct{ before, after string }

// isLeftOut tells whether what stands at an offset was left out.
func (c cut) isLeftOut(offset int) bool {
	return offset < len(c.before) && offset < len(c.after) && c.before[offset] != c.after[offset]
}

// cuts reads a file of both workspaces, once.
func cuts(whole, folder string) func(file string) cut {
	known := map[string]cut{}
	return func(file string) cut {
		if _, ok := known[file]; !ok {
			before, err := os.ReadFile(filepath.Join(whole, file))
			if err != nil {
				fail(err)
			}
			after, err := os.ReadFile(filepath.Join(folder, file))
			if err != nil {
				fail(err)
			}
			known[file] = cut{string(before), string(after)}
		}
		return known[file]
	}
}

// checkOwn checks a workspace that go/types accepts and of which only govisd refuses pieces: in each of these there must be a fault of its rule, and none where
// nothing is left out because of them.
func checkOwn(program, folder, module, whole string) int {
	faults, said, status := runCheck(program, whole, module, whole)
	if status != 0 && status != 1 || said != "" {
		fail(fmt.Errorf("%s: status %d: %s", whole, status, said))
	}
	cutOf, rules, stand := cuts(whole, folder), map[string]int{}, map[string][]int{}
	differ := 0
	for _, one := range faults {
		if !cutOf(one.File).isLeftOut(one.Offset) {
			fmt.Println("differs:", one.text(whole))
			differ++
			continue
		}
		rules[one.Rule]++
		stand[one.File+" "+one.Rule] = append(stand[one.File+" "+one.Rule], one.Offset)
	}
	counts := map[string]int{}
	for _, one := range readOwn(folder) {
		offsets := stand[one.file+" "+one.rule]
		if at := sort.SearchInts(offsets, one.start); at < len(offsets) && offsets[at] < one.end {
			counts[one.rule]++
			continue
		}
		fmt.Printf("differs: no fault %s %s %s: %s:%d %s\n", one.rule, one.from, one.name, one.file, one.start, one.why)
		differ++
	}
	writeCounts(os.Stdout, "faults in what is left out for them:", rules)
	writeCounts(os.Stdout, "pieces that only govisd refuses, with their rule:", counts)
	fmt.Printf("faults elsewhere, and pieces without their rule: %d\n", differ)
	if differ > 0 {
		return 1
	}
	return 0
}
