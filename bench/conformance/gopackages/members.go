package main

import (
	"go/ast"
	"go/types"
)

// isValid tells whether go/types has a type.
func isValid(one types.Type) bool { return one != nil && one != types.Typ[types.Invalid] }

// hasType tells whether go/types has a type, and one that is defined by one: behind a pointer too.
func hasType(one types.Type) bool {
	if pointer, ok := one.(*types.Pointer); ok {
		return hasType(pointer.Elem())
	}
	return isValid(one) && isValid(one.Underlying())
}

// typed notes whether go/types has a type of what decides which names may stand in a place.
func (q *questioner) typed(told *toldUse, one *usage) {
	switch told.Context {
	case "value":
		told.Typed = hasType(q.j.info.Types[one.left].Type)
		told.Apart = q.apart.has(one.left)
		selector, ok := q.parents[one.ident].(*ast.SelectorExpr)
		told.Late = ok && q.late[selector]
	case "key":
		told.Typed = hasType(q.j.info.Types[one.literal.Type].Type)
		told.Apart = q.apart.has(one.literal.Type)
	}
}

// behindValue is what a name denotes behind the dot of a value, by the type that go/types has of this alone, and the rule that refuses it there, or nothing.
// Where several rules say that a value has no member of the name, it is S1.
func (q *questioner) behindValue(one *usage, name string) (types.Object, string) {
	left := q.j.info.Types[one.left]
	switch {
	case name == "_":
		return nil, "S8"
	case !left.IsValue() || !isValid(left.Type):
		return nil, "S4"
	}
	object, _, isOfPointer := types.LookupFieldOrMethod(left.Type, left.Addressable(), q.pkg, name)
	if object == nil && isOfPointer {
		return nil, "S5"
	} else if object == nil {
		return nil, "S1"
	}
	return object, ruleOfKind(one.role, object)
}

// keyOf is what a name denotes as a key of a literal, by the type that go/types has of the literal, and the rule that refuses it, or nothing.
func (q *questioner) keyOf(one *usage, name string) (types.Object, string) {
	literal := q.j.info.Types[one.literal.Type]
	if !isValid(literal.Type) {
		return nil, "F8"
	}
	underlying, ok := literal.Type.Underlying().(*types.Struct)
	if !ok {
		return nil, "F8"
	}
	object := fieldOf(underlying, q.pkg, name)
	switch {
	case !haveKeys(one.literal):
		return object, "F5"
	case object == nil:
		return nil, "F1"
	case isRepeated(one, name):
		return object, "F4"
	}
	return object, ""
}

// fieldOf gives the field of a struct type that is seen by a name in a package.
func fieldOf(one *types.Struct, from *types.Package, name string) types.Object {
	for i := 0; i < one.NumFields(); i++ {
		if field := one.Field(i); name != "_" && field.Name() == name && (field.Exported() || field.Pkg() == from) {
			return field
		}
	}
	return nil
}

// haveKeys tells whether all elements of a literal have keys.
func haveKeys(literal *ast.CompositeLit) bool {
	for _, element := range literal.Elts {
		if _, ok := element.(*ast.KeyValueExpr); !ok {
			return false
		}
	}
	return true
}

// isRepeated tells whether another key of a literal is spelled so.
func isRepeated(one *usage, name string) bool {
	for _, element := range one.literal.Elts {
		if pair, ok := element.(*ast.KeyValueExpr); ok {
			if key, ok := pair.Key.(*ast.Ident); ok && key != one.ident && key.Name == name {
				return true
			}
		}
	}
	return false
}

// isOfOther tells whether go/types may say at another element of a literal that a key breaks a rule.
func isOfOther(rule string) bool { return rule == "F4" || rule == "F5" || rule == "F8" }
