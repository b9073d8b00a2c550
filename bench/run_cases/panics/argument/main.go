package main

func divided(x int, y int) int {
	println(x)
	return x / y
}

func main() {
	println(divided(4, 2), divided(5, 0), divided(6, 3))
}
