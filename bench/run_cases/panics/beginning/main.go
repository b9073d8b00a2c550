package main

func init() {
	println(1)
	panic(2)
}

func init() {
	println(3)
}

func main() {
	println(4)
}
