package main

import "ex.com/m/text"

func main() {
	println(1)
	if false {
		later()
	}
	text.Say()
}
