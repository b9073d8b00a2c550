package main

type number int

// A conversion takes no step.
func main() {
	x := 5
	println(int(number(x)))
}
