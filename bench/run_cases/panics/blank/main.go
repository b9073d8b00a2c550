package main

func main() {
	zero := 0
	println(zero)
	_ = 1 / zero
	println(1)
}
