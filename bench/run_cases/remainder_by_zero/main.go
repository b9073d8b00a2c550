package main

func main() {
	x := 0
	println(7)
	println(7 % x)
}
