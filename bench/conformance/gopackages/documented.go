package main

import (
	"bufio"
	"encoding/json"
	"go/ast"
	"go/parser"
	"go/token"
	"go/types"
	"os"
)

// What is told of a name, asked from a package as the name of a type that another one, or itself, declares.
type toldType struct {
	Archive  string       `json:"archive"`
	From     string       `json:"from"`
	Package  string       `json:"package"`
	Name     string       `json:"name"`
	Accepted bool         `json:"accepted"` // both packages, by go/types, and so is all that they import
	Rule     string       `json:"rule"`     // why it is the name of no type
	Late     bool         `json:"late"`     // whether it is a type for which go/types of Go 1.19 has no fields
	None     bool         `json:"none"`     // whether it is a type that is defined by what has no type
	Repeated []string     `json:"repeated"` // the names of members that a type declares twice, there or in what is imported
	Cyclic   bool         `json:"cyclic"`   // whether a type reaches itself there
	Early    bool         `json:"early"`    // whether go/types of Go 1.19 comes to an alias too early there
	Members  []toldMember `json:"members"`
}

// A toldMember is what stands behind a variable of a type, in the words of the daemon.
type toldMember struct {
	Doc  string   `json:"doc"`
	Kind string   `json:"kind"`
	Name string   `json:"name"`
	Path []string `json:"path"`
}

// A documenter tells of the types of a workspace.
type documenter struct {
	*judgement
	comments map[place]string // the doc comments of functions by the places of their names
	late     map[types.Object]bool
	names    []string
}

// commentsOf gives the doc comments of functions and methods, byte for byte, by the places of their names.
func commentsOf(texts map[string]string) map[place]string {
	found := map[place]string{}
	for where, text := range texts {
		fset := token.NewFileSet()
		offset := func(at token.Pos) int { return fset.Position(at).Offset }
		file, err := parser.ParseFile(fset, where, text, parser.ParseComments|parser.SkipObjectResolution)
		if err != nil {
			continue
		}
		for _, decl := range file.Decls {
			if function, ok := decl.(*ast.FuncDecl); ok && function.Doc != nil {
				found[place{where, offset(function.Name.Pos())}] = text[offset(function.Doc.Pos()):offset(function.Doc.End())]
			}
		}
	}
	return found
}

// typeNamed gives the type of a name, where it is asked from a package as a type of one, or the rule that it breaks.
func (d *documenter) typeNamed(from, of, name string) (types.Object, string) {
	object := d.checked[of].Scope().Lookup(name)
	if from == of && object == nil {
		object = types.Universe.Lookup(name)
	}
	switch {
	case name == "_" && from == of:
		return nil, "N8"
	case name == "_":
		return nil, "S8"
	case object == nil && from == of:
		return nil, "N1"
	case object == nil:
		return nil, "N3"
	case from != of && !ast.IsExported(name):
		return nil, "N2"
	case object.Parent() == types.Universe && !has(usable, name):
		return nil, "N7"
	}
	return object, ruleOfKind("type", object)
}

// membersOf gives what may be selected behind a variable of a type in a package, with the comments of methods that are declared with a receiver.
func (d *documenter) membersOf(one types.Type, from *types.Package) []toldMember {
	found := []toldMember{}
	for _, name := range d.names {
		if name == "_" {
			continue
		}
		object, index, _ := types.LookupFieldOrMethod(one, true, from, name)
		if object == nil {
			continue
		}
		member := toldMember{Kind: "field", Name: name, Path: pathOf(one, index)}
		if method, ok := object.(*types.Func); ok {
			member.Kind = "method"
			member.Doc = d.comments[d.place(method.Pos())]
		}
		found = append(found, member)
	}
	return found
}

// pathOf names the embedded fields through which a selection goes.
func pathOf(one types.Type, index []int) []string {
	found := []string{}
	for _, at := range index[:len(index)-1] {
		if pointer, ok := one.Underlying().(*types.Pointer); ok {
			one = pointer.Elem()
		}
		field := one.Underlying().(*types.Struct).Field(at)
		found = append(found, field.Name())
		one = field.Type()
	}
	return found
}

// tell tells of a name.
func (d *documenter) tell(archive, from, of, name string, near *apart) *toldType {
	told := &toldType{Archive: archive, From: from, Package: of, Name: name, Repeated: near.names(), Cyclic: near.isCyclic, Early: near.isEarly, Members: []toldMember{}}
	told.Accepted = d.isAccepted(from) && d.isAccepted(of)
	object, rule := d.typeNamed(from, of, name)
	told.Rule = rule
	if rule == "" && isValid(object.Type()) {
		told.Late, told.None = d.late[object], !hasType(object.Type())
		told.Members = d.membersOf(object.Type(), d.checked[from])
	}
	return told
}

// isAccepted tells whether go/types accepts a package and all that it imports.
func (j *judgement) isAccepted(from string) bool {
	return hard(j.errors[from]) == nil && !j.isAboveRefused(from)
}

// askers gives the packages from which types of a package are asked: itself, those that import it, and, if wanted, the one before it.
func (d *documenter) askers(of string, isBeside bool) []string {
	found := []string{of}
	for at, from := range d.order {
		isBefore := isBeside && at+1 < len(d.order) && d.order[at+1] == of && !d.imports(of, from) && d.checked[of].Name() != "main"
		if from != of && d.isWhole(from) && (isBefore || d.imports(from, of)) {
			found = append(found, from)
		}
	}
	return found
}

// isWhole tells whether the files of a package make one.
func (d *documenter) isWhole(from string) bool { return d.checked[from] != nil && !d.broken[from] }

// imports tells whether an import of a package leads to another one.
func (d *documenter) imports(from, to string) bool {
	for _, one := range d.edges(from) {
		if one.to == to && d.refused[from][to] == "" {
			return true
		}
	}
	return false
}

// document tells of the names of a workspace that packages declare outside functions, and of some that they don't.
func document(file string, isBeside bool, out *json.Encoder) error {
	text, err := os.ReadFile(file)
	if err != nil {
		return err
	}
	j := judged(string(text))
	if j == nil {
		return nil
	}
	d := &documenter{judgement: j, comments: commentsOf(j.texts), late: j.latePointers(), names: j.candidates()}
	for _, of := range d.order {
		if !d.isWhole(of) {
			continue
		}
		names := append([]string{"_", "fresh9", "error", "int", "uint8", "len"}, d.checked[of].Scope().Names()...)
		near := d.apartIn(of)
		for _, from := range d.askers(of, isBeside) {
			for _, name := range names {
				if err := out.Encode(d.tell(file, from, of, name, near)); err != nil {
					return err
				}
			}
		}
	}
	return nil
}

// documentAll tells of archives.
func documentAll(files []string, isBeside bool) {
	out := bufio.NewWriterSize(os.Stdout, 1<<20)
	defer out.Flush()
	for _, file := range files {
		if err := document(file, isBeside, json.NewEncoder(out)); err != nil {
			fail(err)
		}
	}
}
