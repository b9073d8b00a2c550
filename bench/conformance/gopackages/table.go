package main

import "strings"

// A form is a rule that an error may be, and where the rule stands by the tree round the error.
type form struct {
	rule    string
	anchors string
}

// The words of anchors: `at` and `start` are the places that go/types gives; `call` the opening parenthesis of a call round it, `callee` the first byte of one;
// `statement`, `spec`, `binary`, `unary`, `literal`, `element` the first byte of a node of that kind round it, `value` the first value of a specification; `field` the
// last identifier of an embedded field, `base` the name of a receiver's type, `func` the name of a function, `selector` the name behind a dot, `import` the string of an
// import; `inner` the place behind parentheses that open where it stands, `starred` the last identifier of a name behind a star, `near` any place in the same statement or specification, `file` any place in the file, `package` any place in the package.
var table = map[string][]form{
	"parse":                    {{"P1", "file"}, {"P2", "file"}, {"L1", "file"}, {"L2", "file"}, {"L3", "file"}},
	"BlankPkgName":             {{"K3", "file"}},
	"MismatchedPkgName":        {{"K2", "file"}, {"K3", "package"}},
	"InvalidPkgUse":            {{"N4", "at"}, {"N6", "at"}},
	"BadImportPath":            {{"I1", "at"}},
	"BrokenImport":             {{"I1", "at"}, {"I2", "at"}, {"I3", "at"}, {"I4", "at"}, {"I5", "at"}, {"I6", "at"}},
	"InvalidInitCycle":         {{"Y7", "at"}},
	"DuplicateDecl":            {{"B1", "at import"}, {"B5", "at field"}, {"B2", "package"}},
	"RepeatedDecl":             {{"B1", "at"}},
	"InvalidDeclCycle":         {{"Y1", "at"}},
	"InvalidTypeCycle":         {{"Y1", "at"}},
	"InvalidConstInit":         {{"Y7", "at start"}},
	"InvalidConstType":         {{"Y7", "value"}},
	"UntypedNil":               {{"Y4", "statement spec"}, {"C3", "call"}},
	"WrongAssignCount":         {{"Y4", "statement spec"}},
	"UnassignableOperand":      {{"Y4", "statement"}, {"Y3", "statement"}},
	"NoNewVar":                 {{"B4", "start"}},
	"IncompatibleAssign":       {{"Y4", "statement spec element at"}, {"C3", "call"}, {"F6", "literal"}},
	"InvalidIfaceAssign":       {{"Y4", "statement spec element at"}, {"C3", "call"}, {"F6", "literal"}},
	"NotAType":                 {{"N6", "at selector"}},
	"BlankIfaceMethod":         {{"B5", "at"}},
	"InvalidPtrEmbed":          {{"Y2", "field"}},
	"InvalidRecv":              {{"B6", "base"}},
	"DuplicateFieldAndMethod":  {{"B5", "package"}},
	"DuplicateMethod":          {{"B5", "at"}},
	"InvalidBlank":             {{"N8", "at"}},
	"InvalidIota":              {{"N7", "at"}},
	"InvalidInitDecl":          {{"B3", "at func"}},
	"InvalidMainDecl":          {{"B3", "at func"}},
	"TooManyValues":            {{"Y3", "at"}, {"S4", "selector"}, {"C1", "call"}, {"C2", "call"}, {"C3", "call"}, {"C4", "call"}, {"Y7", "at"}, {"Y4", "statement spec"}},
	"NumericOverflow":          {{"Y7", "at start"}, {"X1", "near"}},
	"UndefinedOp":              {{"Y3", "binary unary statement"}},
	"MismatchedTypes":          {{"Y3", "binary statement"}},
	"DivByZero":                {{"Y7", "binary statement"}},
	"NonNumericIncDec":         {{"Y3", "statement"}},
	"UnaddressableOperand":     {{"Y3", "unary"}},
	"InvalidIndirection":       {{"Y3", "unary"}, {"N6", "at"}},
	"DuplicateLitField":        {{"F4", "element"}},
	"MixedStructLit":           {{"F5", "literal element"}},
	"InvalidStructLit":         {{"F6", "literal"}},
	"MissingLitField":          {{"F1", "at"}, {"F2", "at"}, {"F3", "at"}},
	"UnexportedLitField":       {{"F7", "literal"}},
	"InvalidLit":               {{"F8", "literal"}},
	"AmbiguousSelector":        {{"S2", "at"}},
	"UndeclaredImportedName":   {{"N3", "at"}, {"S8", "at"}},
	"UnexportedName":           {{"N2", "at"}},
	"UndeclaredName":           {{"N1", "at"}},
	"MissingFieldOrMethod":     {{"S1", "at"}, {"S3", "at"}, {"S4", "at"}, {"S6", "at"}, {"S7", "at"}, {"S8", "at"}},
	"InvalidMethodExpr":        {{"S5", "at"}},
	"UncalledBuiltin":          {{"X1", "at inner"}, {"S4", "at"}},
	"InvalidCap":               {{"N7", "callee"}},
	"InvalidLen":               {{"C3", "call"}},
	"InvalidConversion":        {{"C4", "call"}},
	"InvalidUntypedConversion": {{"Y3", "binary statement"}},
	"InvalidCond":              {{"Y3", "at"}, {"Y7", "at"}},
	"UnusedExpr":               {{"Y8", "at"}},
	"MissingReturn":            {{"Y5", "at"}},
	"WrongResultCount":         {{"Y4", "statement"}},
	"MisplacedBreak":           {{"Y6", "at"}},
	"MisplacedContinue":        {{"Y6", "at"}},
	"WrongArgCount":            {{"C2", "call"}},
	"InvalidCall":              {{"C1", "call"}},
	"NotAnExpr":                {{"N5", "at selector inner starred"}},
}

// kinds are the nodes that the words of anchors mean.
var kinds = map[string]string{
	"call": "CallExpr", "callee": "CallExpr", "statement": "AssignStmt IncDecStmt ReturnStmt ExprStmt", "spec": "ValueSpec", "value": "ValueSpec", "binary": "BinaryExpr",
	"unary": "UnaryExpr StarExpr", "literal": "CompositeLit", "element": "KeyValueExpr", "field": "Field", "base": "Field", "func": "FuncDecl",
	"selector": "SelectorExpr", "import": "ImportSpec", "starred": "StarExpr",
}

// isPlace tells whether a node has a place that an anchor means.
func isPlace(anchor string, n node, at place) bool {
	if !has(strings.Fields(kinds[anchor]), n.kind) {
		return false
	}
	switch anchor {
	case "call", "value", "field", "selector", "import", "starred":
		return n.second == at
	case "base", "func":
		return n.third == at
	}
	return n.at == at
}

// isInside tells whether a place lies in the innermost statement or specification round an error.
func isInside(odd *oddity, at place) bool {
	for _, n := range odd.nodes {
		if strings.HasSuffix(n.kind, "Stmt") || n.kind == "ValueSpec" {
			return n.at.file == at.file && n.at.offset <= at.offset && at.offset < n.end
		}
	}
	return false
}

// isOfBare tells whether an error is about a function without parameters that has an empty list of results.
func (odd *oddity) isOfBare() bool {
	for _, n := range odd.nodes {
		if n.isBare {
			return true
		}
	}
	return false
}

// isBehindParens tells whether a place is that of an error but for parentheses that open there.
func isBehindParens(odd *oddity, at place) bool {
	parens := 0
	for _, n := range odd.nodes {
		if n.kind == "ParenExpr" {
			parens++
		}
	}
	return at.file == odd.at.file && odd.at.offset < at.offset && at.offset <= odd.at.offset+parens
}

// stands tells whether a place is one where the rule of an error stands.
func (f form) stands(odd *oddity, at place) bool {
	for _, anchor := range strings.Fields(f.anchors) {
		switch anchor {
		case "package":
			return true
		case "file":
			if at.file == odd.at.file {
				return true
			}
		case "at":
			if at == odd.at {
				return true
			}
		case "start":
			if at == odd.start {
				return true
			}
		case "inner":
			if isBehindParens(odd, at) {
				return true
			}
		case "near":
			if isInside(odd, at) {
				return true
			}
		}
		for _, n := range odd.nodes {
			if isPlace(anchor, n, at) {
				return true
			}
		}
	}
	return false
}

// matches finds a refusal of the rule where the error stands.
func (f form) matches(odd *oddity, a *answer, inPackage func(place) bool) (place, bool) {
	for at, rules := range a.refused {
		if inPackage(at) && has(rules, f.rule) && f.stands(odd, at) {
			return at, true
		}
	}
	return place{}, false
}
