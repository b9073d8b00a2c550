package main

import _ "ex.com/m/text"

func main() {
	println(1)
}
