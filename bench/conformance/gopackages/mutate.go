package main

import (
	"go/ast"
	"go/parser"
	"go/scanner"
	"go/token"
	"math/rand"
	"strings"
)

// A lexeme is a token of a text, with its place.
type lexeme struct {
	token      token.Token
	text       string
	start, end int
}

// lexemes cuts a text, from the first function on.
func lexemes(text string) []lexeme {
	fset := token.NewFileSet()
	file := fset.AddFile("", fset.Base(), len(text))
	var s scanner.Scanner
	s.Init(file, []byte(text), nil, 0)
	var found []lexeme
	for {
		pos, tok, lit := s.Scan()
		if tok == token.EOF {
			return found
		}
		if tok == token.SEMICOLON && lit == "\n" {
			continue
		}
		if lit == "" || tok.IsOperator() {
			lit = tok.String()
		}
		start := file.Offset(pos)
		found = append(found, lexeme{tok, lit, start, start + len(lit)})
	}
}

var operatorNames = []string{"+", "-", "*", "/", "%", "==", "!=", "<", ">=", "&&", "||", "&", "<<", "|"}

// A change is a way to change a text: it answers the new one, or nothing.
type change struct {
	name  string
	apply func(r *rand.Rand, text string, all []lexeme, at int) string
}

func replaced(text string, old lexeme, word string) string {
	return text[:old.start] + word + text[old.end:]
}

// otherOf picks another lexeme that fits.
func otherOf(r *rand.Rand, all []lexeme, fits func(lexeme) bool) string {
	for try := 0; try < 60; try++ {
		if one := all[r.Intn(len(all))]; fits(one) {
			return one.text
		}
	}
	return ""
}

func isName(l lexeme) bool { return l.token == token.IDENT }

func isLiteral(l lexeme) bool { return l.token == token.INT || l.token == token.STRING }

func isOperand(l lexeme) bool { return isName(l) || isLiteral(l) }

var changes = []change{
	{"name", func(r *rand.Rand, text string, all []lexeme, at int) string {
		if word := otherOf(r, all, isName); isName(all[at]) && word != all[at].text && word != "" {
			return replaced(text, all[at], word)
		}
		return ""
	}},
	{"operand", func(r *rand.Rand, text string, all []lexeme, at int) string {
		if word := otherOf(r, all, isOperand); isOperand(all[at]) && word != all[at].text && word != "" {
			return replaced(text, all[at], word)
		}
		return ""
	}},
	{"operator", func(r *rand.Rand, text string, all []lexeme, at int) string {
		word := operatorNames[r.Intn(len(operatorNames))]
		if has(operatorNames, all[at].text) && word != all[at].text {
			return replaced(text, all[at], word)
		}
		return ""
	}},
	{"prefix", func(r *rand.Rand, text string, all []lexeme, at int) string {
		if isOperand(all[at]) {
			return replaced(text, all[at], []string{"&", "*", "!", "-", "+"}[r.Intn(5)]+all[at].text)
		}
		return ""
	}},
	{"bare", func(r *rand.Rand, text string, all []lexeme, at int) string {
		if has([]string{"&", "*", "!", "-"}, all[at].text) {
			return replaced(text, all[at], "")
		}
		return ""
	}},
	{"argument", func(r *rand.Rand, text string, all []lexeme, at int) string {
		if at+2 < len(all) && all[at].token == token.COMMA && isOperand(all[at+1]) && (all[at+2].token == token.COMMA || all[at+2].token == token.RPAREN || all[at+2].token == token.RBRACE) {
			return text[:all[at].start] + text[all[at+1].end:]
		}
		return ""
	}},
	{"more", func(r *rand.Rand, text string, all []lexeme, at int) string {
		if word := otherOf(r, all, isOperand); at > 0 && all[at].token == token.RPAREN && isOperand(all[at-1]) && word != "" {
			return text[:all[at].start] + ", " + word + text[all[at].start:]
		}
		return ""
	}},
	{"assign", func(r *rand.Rand, text string, all []lexeme, at int) string {
		switch all[at].token {
		case token.DEFINE:
			return replaced(text, all[at], "=")
		case token.ASSIGN:
			return replaced(text, all[at], ":=")
		}
		return ""
	}},
	{"selector", func(r *rand.Rand, text string, all []lexeme, at int) string {
		if word := otherOf(r, all, isName); isName(all[at]) && word != "" {
			return replaced(text, all[at], all[at].text+"."+word)
		}
		return ""
	}},
	{"unselected", func(r *rand.Rand, text string, all []lexeme, at int) string {
		if at+1 < len(all) && all[at].token == token.PERIOD && isName(all[at+1]) {
			return text[:all[at].start] + text[all[at+1].end:]
		}
		return ""
	}},
	{"call", func(r *rand.Rand, text string, all []lexeme, at int) string {
		if isName(all[at]) {
			return replaced(text, all[at], all[at].text+"()")
		}
		return ""
	}},
	{"without", func(r *rand.Rand, text string, all []lexeme, at int) string {
		return changedLine(text, all[at].start, 0)
	}},
	{"twice", func(r *rand.Rand, text string, all []lexeme, at int) string {
		return changedLine(text, all[at].start, 2)
	}},
}

// changedLine writes the line of a place so many times.
func changedLine(text string, at, times int) string {
	start := strings.LastIndex(text[:at], "\n") + 1
	end := start + strings.Index(text[start:]+"\n", "\n") + 1
	line := text[start:min(end, len(text))]
	if !strings.HasPrefix(line, "\t") || strings.ContainsAny(line, "{}") && !strings.Contains(line, "return") {
		return ""
	}
	return text[:start] + strings.Repeat(line, times) + text[min(end, len(text)):]
}

// isInGrammar tells whether a text is one that both parsers read: the grammar of docs/RULES.md, as far as a change can leave it.
func isInGrammar(text string) bool {
	file, err := parser.ParseFile(token.NewFileSet(), "", text, 0)
	if err != nil {
		return false
	}
	isRight := true
	ast.Inspect(file, func(n ast.Node) bool {
		isRight = isRight && isNodeInGrammar(n)
		return isRight
	})
	return isRight
}

// isNodeInGrammar tells whether a node is of the grammar, but for what stands in it.
func isNodeInGrammar(n ast.Node) bool {
	isRight := true
	switch n := n.(type) {
	case *ast.AssignStmt:
		if n.Tok == token.DEFINE {
			for _, left := range n.Lhs {
				_, isIdent := left.(*ast.Ident)
				isRight = isRight && isIdent
			}
		}
	case *ast.ForStmt:
		if post, ok := n.Post.(*ast.AssignStmt); ok && post.Tok == token.DEFINE {
			isRight = false
		}
	case *ast.ValueSpec:
		isRight = isRight && (n.Type != nil || len(n.Values) > 0)
	case *ast.GenDecl:
		for _, spec := range n.Specs {
			if value, ok := spec.(*ast.ValueSpec); ok && n.Tok == token.CONST && len(value.Values) == 0 {
				isRight = false
			}
		}
	case *ast.TypeSpec:
		isRight = isRight && (!n.Assign.IsValid() || isTypeName(n.Type))
	case *ast.FuncDecl:
		isRight = isRight && n.Body != nil && isReceiver(n.Recv)
	case *ast.KeyValueExpr:
		_, isIdent := n.Key.(*ast.Ident)
		isRight = isRight && isIdent
	case *ast.InterfaceType:
		for _, method := range n.Methods.List {
			isRight = isRight && len(method.Names) == 1
		}
	case *ast.StructType:
		for _, field := range n.Fields.List {
			isRight = isRight && (len(field.Names) > 0 || isStarred(field.Type))
		}
	case *ast.CompositeLit:
		isRight = isRight && isLiteralType(n.Type)
	case *ast.ArrayType, *ast.MapType, *ast.ChanType, *ast.FuncLit, *ast.IndexExpr, *ast.SliceExpr, *ast.TypeAssertExpr, *ast.RangeStmt, *ast.LabeledStmt, *ast.Ellipsis, *ast.SendStmt, *ast.IndexListExpr:
		isRight = false
	case *ast.CallExpr:
		isRight = isRight && isCallee(n.Fun)
	case *ast.BranchStmt:
		isRight = isRight && n.Label == nil
	case *ast.FuncType:
		isRight = isRight && n.TypeParams == nil
	}
	return isRight
}

// isReceiver tells whether a receiver is a name with a star or without.
func isReceiver(list *ast.FieldList) bool {
	if list == nil {
		return true
	}
	if len(list.List) != 1 || len(list.List[0].Names) > 1 {
		return false
	}
	return isStarred(list.List[0].Type)
}

// isStarred tells whether a type is a name with a star or without, as the type of a receiver and of an embedded field.
func isStarred(expr ast.Expr) bool {
	if star, ok := expr.(*ast.StarExpr); ok {
		expr = star.X
	}
	return isLiteralType(expr) && !isStruct(expr)
}

func isStruct(expr ast.Expr) bool {
	_, ok := expr.(*ast.StructType)
	return ok
}

func isLiteralType(expr ast.Expr) bool {
	switch expr := expr.(type) {
	case *ast.Ident, *ast.StructType:
		return true
	case *ast.SelectorExpr:
		_, ok := expr.X.(*ast.Ident)
		return ok
	}
	return false
}

// isCallee tells whether what is called is written without struct and interface types.
func isCallee(expr ast.Expr) bool {
	for {
		switch inner := expr.(type) {
		case *ast.ParenExpr:
			expr = inner.X
			continue
		case *ast.StarExpr:
			expr = inner.X
			continue
		case *ast.StructType, *ast.InterfaceType, *ast.FuncType:
			return false
		}
		return true
	}
}

// mutate changes a text at one place, in one of the ways in turn, or in another where that cannot be.
func mutate(r *rand.Rand, text string, turn int) (string, string) {
	all := lexemes(text)
	first := strings.LastIndex(text, "import")
	for way := 0; way < len(changes); way++ {
		one := changes[(turn+way)%len(changes)]
		for try := 0; try < 150; try++ {
			at := r.Intn(len(all))
			if all[at].start < first+40 {
				continue
			}
			if changed := one.apply(r, text, all, at); changed != "" && changed != text && isInGrammar(changed) {
				return "changed:" + one.name, changed
			}
		}
	}
	return "unchanged", text
}

// isTypeName tells whether what stands after the `=` of an alias is a name, alone or after a package's name and a dot, without parentheses.
func isTypeName(e ast.Expr) bool {
	switch e := e.(type) {
	case *ast.Ident:
		return true
	case *ast.SelectorExpr:
		_, isIdent := e.X.(*ast.Ident)
		return isIdent
	}
	return false
}
