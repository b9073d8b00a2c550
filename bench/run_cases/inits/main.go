package main

import (
	_ "ex.com/m/b"

	"ex.com/m/a"
	_ "ex.com/m/a-b"
	_ "ex.com/m/a/b"
)

func init() {
	println(3 + a.Value())
}

func main() {
	println(11)
}
