package main

func half(x int) int {
	return x / 2
}

func tell(x int) {
	println(x)
}

// Each instruction is done at least once, but the panic with a number.
func main() {
	x := 7
	y := -2
	println(x+y, x-y, x*y, x/y, x%y, -x)
	println(x == y, x != y, x < y, x <= y, x > y, x >= y, !(x < y))
	half(x)
	_ = half(x)
	tell(half(x))
	for x > 5 {
		x--
	}
	println(x)
	panic(x > y)
}
