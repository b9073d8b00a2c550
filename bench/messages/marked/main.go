// Each line has the rule of a fault and the part of the text that is marked for it, as marked.py wants them.
package main

import "ex.com/marked/geo"

type pair struct{ a, b int }

func two() (int, string) { return 1, "a" }

func one(a int, b string) (int, string) {
	return 1 // Y4: 1
}

func nothing() {
	return 1, 2 // Y4: 1, 2
}

func number() int {
	return 1, 2, 3 // Y4: 2, 3
}

func text() string {
	return 5 + 6 // Y4: 5 + 6
}

func values() {
	var x int = "a" // Y4: "a"
	var y string
	x, y = 1, 2                    // Y4: 2
	x = nil                        // Y4: nil
	z := nil                       // Y4: nil
	var s geo.Shape = geo.Square{} // Y4: geo.Square{}
	var p *pair = pair{}           // Y4: pair{}
	_ = pair{1, "x"}               // Y4: "x"
	_ = pair{a: "x", b: 1}         // Y4: "x"
	_ = pair{1, 2, 3, 4}           // F6: 3, 4
	_ = pair{1}                    // F6: pair
	5 = x                          // Y4: 5
	x == 1                         // Y8: x == 1
}

func operands() {
	x, y := 1, "a"
	_ = x + y       // Y3: x + y
	_ = 2 * (x + y) // Y3: x + y
	_ = -y          // Y3: -y
	if x + 1 {      // Y3: x + 1
	}
	x += y          // Y3: x += y
	const c = 1 / 0 // Y7: 1 / 0
	const d = x     // Y7: x
	_ = x << 2      // X1: x << 2
	_ = number() | 2        // X1: number() | 2
	_ = big + 1 + x         // X1: big + 1
	_ = int(big) * 2        // Y7: int(big) * 2
	const point pair = 1    // Y7: 1
}

const big = 9223372036854775807

var (
	set     = number()       // X1: number()
	sum     = number() + 1   // X1: number() + 1
	zero    = pair{}         // X1: pair{}
	pointer *pair = nil      // X1: nil
	a, b    = two()          // X1: two()
)

func calls() {
	x := 1
	x(2)              // C1: x
	one(1)            // C2: )
	one(1, "a", 3, 4) // C2: 3, 4
	one("a", "b")     // C3: "a"
	one(
		1,
		2, // C3: 2
	)
	geo.Line(geo.Point{}, x) // C3: x
	_ = int("abc")           // C4: "abc"
	_ = geo.Point(x)         // C4: x
	println(pair{})          // C3: pair{}
	absent(x)                // N1: absent
	geo.Lyne(x)              // N3: Lyne
}

func main() {}
