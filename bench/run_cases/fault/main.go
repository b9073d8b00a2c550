package main

func main() {
	println(1)
	println(y)
}
