package main

import "ex.com/m/limits"

const c = 20

// A constant expression takes one step, whatever it is.
func main() {
	const d = c / 3
	println(d*2 > c, d, limits.Last)
}
