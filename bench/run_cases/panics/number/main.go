package main

func main() {
	println(1)
	panic(5)
	println(2)
}
