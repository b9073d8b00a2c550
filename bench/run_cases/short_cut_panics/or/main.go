package main

func main() {
	zero := 0
	println(zero != 0)
	println(zero != 0 || 1/zero > 0)
	println(2)
}
