// Goscan reads what `test_cases tokens` writes of Go files, scans the same files by go/scanner, and compares.
//
// It prints how many files, tokens and comments were compared, and where the two differ: by the forms that it
// names, or otherwise. The status is 0 where nothing differs otherwise, 1 where something does, and 2 where
// nothing could be compared.
package main

import (
	"bufio"
	"bytes"
	"fmt"
	"go/scanner"
	"go/token"
	"math/big"
	"os"
	"strconv"
	"strings"
	"unicode"
	"unicode/utf8"
)

// The forms by which govisd and go/scanner differ, each as it is printed. Counts of files: govisd refuses a file
// at its first literal of such a form.
const (
	runeForm      = "a rune literal"
	floatForm     = "a floating-point literal"
	imaginaryForm = "an imaginary literal"
	greatForm     = "an integer above 9223372036854775807"
	joinedForm    = "an integer right before a letter, a digit or a dot"
)

var refusedForms = []string{runeForm, floatForm, imaginaryForm, greatForm, joinedForm}

// The greatest integer literal.
var greatest = big.NewInt(1<<63 - 1)

// A finding is what one of the two says of a file: the lines of its tokens and of its comments, or a fault.
type finding struct {
	lines    []string
	fault    string // of govisd, as `fault OFFSET RULE` or `no text`, or of go/scanner, as its message
	form     string // the first form of a literal that govisd leaves out, or none
	at       int    // where that literal begins
	tokens   int
	comments int
	inserted int // semicolons that the ends of lines stand for
	returns  int // comments and raw strings in which go/scanner leaves out carriage returns
}

// quoted writes bytes as test_cases does.
func quoted(value string) string {
	var out strings.Builder
	out.WriteByte('"')
	for i := 0; i < len(value); i++ {
		b := value[i]
		if b < ' ' || b > '~' || b == '"' || b == '\\' {
			fmt.Fprintf(&out, "\\x%02x", b)
		} else {
			out.WriteByte(b)
		}
	}
	out.WriteByte('"')
	return out.String()
}

// end tells where the token or comment ends whose text go/scanner gives without its carriage returns.
func end(source []byte, start int, text string) int {
	rest := source[start:]
	switch {
	case strings.HasPrefix(text, "//"):
		if n := bytes.IndexByte(rest, '\n'); n >= 0 {
			return start + n
		}
		return len(source)
	case strings.HasPrefix(text, "/*"):
		return start + 2 + bytes.Index(rest[2:], []byte("*/")) + 2
	case strings.HasPrefix(text, "`"):
		return start + 1 + bytes.IndexByte(rest[1:], '`') + 1
	default:
		return start + len(text)
	}
}

// continues tells whether a character may not stand behind an integer literal of govisd.
func continues(rest []byte) bool {
	c, _ := utf8.DecodeRune(rest)
	return len(rest) > 0 && (c == '_' || c == '.' || unicode.IsLetter(c) || unicode.IsDigit(c))
}

// leftOut names the form of a literal that govisd leaves out, or nothing.
func leftOut(kind token.Token, text string, rest []byte) string {
	switch kind {
	case token.CHAR:
		return runeForm
	case token.FLOAT:
		return floatForm
	case token.IMAG:
		return imaginaryForm
	case token.INT:
		if value, ok := new(big.Int).SetString(text, 0); ok && value.Cmp(greatest) > 0 {
			return greatForm
		}
		if continues(rest) {
			return joinedForm
		}
	}
	return ""
}

// word writes what a token is, and its value where it is a literal.
func word(kind token.Token, text string) string {
	switch kind {
	case token.IDENT:
		return "identifier"
	case token.INT:
		value, _ := strconv.ParseUint(text, 0, 64)
		return "integer " + strconv.FormatUint(value, 10)
	case token.STRING:
		value, _ := strconv.Unquote(text)
		return "string " + quoted(value)
	default:
		return kind.String()
	}
}

// add adds a token that stands in the text.
func (f *finding) add(source []byte, kind token.Token, start int, text string) int {
	if kind != token.IDENT && kind != token.COMMENT && !kind.IsLiteral() {
		text = kind.String()
	}
	stop := end(source, start, text)
	if strings.Count(text, "\r") != bytes.Count(source[start:stop], []byte("\r")) {
		f.returns++
	}
	if strings.ReplaceAll(string(source[start:stop]), "\r", "") != strings.ReplaceAll(text, "\r", "") {
		f.fault = fmt.Sprintf("go/scanner: at %d the text is not %q", start, text)
	}
	if form := leftOut(kind, text, source[stop:]); form != "" && f.form == "" {
		f.form, f.at = form, start
	}
	return stop
}

// scan tells what go/scanner says of a text.
func scan(source []byte) *finding {
	f := new(finding)
	files := token.NewFileSet()
	file := files.AddFile("", files.Base(), len(source))
	refuse := func(at token.Position, message string) {
		if f.fault == "" {
			f.fault = message
		}
	}
	var s scanner.Scanner
	s.Init(file, source, refuse, scanner.ScanComments)
	var comments []string
	last := 0
	for f.fault == "" {
		pos, kind, text := s.Scan()
		start := file.Offset(pos)
		switch {
		case kind == token.EOF:
			f.lines = append(f.lines, comments...)
			return f
		case f.fault != "":
			return f
		case kind == token.SEMICOLON && text == "\n":
			// go/scanner places it at the end of the line
			f.lines = append(f.lines, fmt.Sprintf("%d %d ;", last, last))
			f.tokens++
			f.inserted++
		case kind == token.COMMENT:
			what := "general"
			if text[1] == '/' {
				what = "line"
			}
			comments = append(comments, fmt.Sprintf("%d %d %s", start, f.add(source, kind, start, text), what))
			f.comments++
		default:
			last = f.add(source, kind, start, text)
			f.lines = append(f.lines, fmt.Sprintf("%d %d %s", start, last, word(kind, text)))
			f.tokens++
		}
	}
	return f
}

// A count is how often each outcome occurred.
type count struct {
	files, compared, refused, tokens, comments, inserted, returns, newer, otherwise int
	forms                                                                           map[string]int
}

// differ prints a difference that no form explains.
func (c *count) differ(path string, what string) {
	c.otherwise++
	if c.otherwise <= 20 {
		fmt.Printf("DIFFERS %s: %s\n", path, what)
	}
}

// newerLetters tells whether the text has characters that Go's tables know as nothing.
func newerLetters(source []byte) bool {
	for _, c := range string(source) {
		if c > unicode.MaxASCII && c != utf8.RuneError && !unicode.In(c, unicode.C, unicode.L, unicode.M, unicode.N,
			unicode.P, unicode.S, unicode.Z) {
			return true
		}
	}
	return false
}

// lines compares the tokens and the comments.
func (c *count) lines(path string, govisd, peer *finding) {
	for i, line := range peer.lines {
		if i >= len(govisd.lines) || govisd.lines[i] != line {
			c.differ(path, fmt.Sprintf("no line `%s` of go/scanner", line))
			return
		}
	}
	if len(govisd.lines) > len(peer.lines) {
		c.differ(path, fmt.Sprintf("a line `%s` of govisd alone", govisd.lines[len(peer.lines)]))
		return
	}
	c.compared++
	c.tokens += peer.tokens
	c.comments += peer.comments
	c.inserted += peer.inserted
	c.returns += peer.returns
}

// file compares what the two say of a file.
func (c *count) file(path string, govisd *finding) {
	source, err := os.ReadFile(path)
	if err != nil {
		c.differ(path, err.Error())
		return
	}
	c.files++
	peer := scan(source)
	switch {
	case peer.fault != "" && govisd.fault != "":
		c.refused++
	case peer.fault != "" && newerLetters(source):
		c.newer++
	case peer.fault != "":
		c.differ(path, "go/scanner alone refuses it: "+peer.fault)
	case peer.form != "" && govisd.fault == fmt.Sprintf("fault %d L3", peer.at):
		c.forms[peer.form]++
	case peer.form != "":
		c.differ(path, fmt.Sprintf("%s at %d, and govisd says: %s", peer.form, peer.at, govisd.fault))
	case govisd.fault != "":
		c.differ(path, "govisd alone refuses it: "+govisd.fault)
	default:
		c.lines(path, govisd, peer)
	}
}

// read compares all files of which the probe wrote.
func (c *count) read(in *bufio.Scanner) {
	path, govisd := "", new(finding)
	for in.Scan() {
		line := in.Text()
		switch {
		case strings.HasPrefix(line, "file "):
			if path != "" {
				c.file(path, govisd)
			}
			path, govisd = line[len("file "):], new(finding)
		case strings.HasPrefix(line, "fault "), line == "no text":
			govisd.fault = line
		default:
			govisd.lines = append(govisd.lines, line)
		}
	}
	if path != "" {
		c.file(path, govisd)
	}
}

// row prints a figure.
func row(number int, what string) {
	fmt.Printf("%10d  %s\n", number, what)
}

func (c *count) print() {
	row(c.files, "files scanned")
	row(c.compared, "files compared whole, in which neither finds a fault")
	row(c.tokens, "tokens compared: kind, start, end, and the value of a literal")
	row(c.inserted, "of these semicolons at ends of lines: govisd has them at the token's end, go/scanner at the line's")
	row(c.comments, "comments compared: kind, start and end")
	row(c.returns, "comments and raw strings whose carriage returns go/scanner leaves out of their text")
	row(c.refused, "files that both refuse")
	for _, form := range refusedForms {
		row(c.forms[form], "files that govisd alone refuses, by L3 at their first literal that it leaves out: "+form)
	}
	row(c.newer, "files that go/scanner alone refuses, with letters that its Unicode tables lack")
	row(c.otherwise, "files in which the two differ otherwise")
}

func main() {
	c := count{forms: make(map[string]int)}
	in := bufio.NewScanner(os.Stdin)
	in.Buffer(make([]byte, 1<<20), 1<<28)
	c.read(in)
	if err := in.Err(); err != nil {
		fmt.Fprintln(os.Stderr, err)
		os.Exit(2)
	}
	c.print()
	switch {
	case c.otherwise > 0:
		os.Exit(1)
	case c.files == 0:
		os.Exit(2)
	}
}
