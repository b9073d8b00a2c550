package main

import "ex.com/typo/lib"

func main() {
	r := lib.Mak(3, 4)
	s := lib.Make("5", 6)
	println(r.Area(), s.Area())
}
