package main

type number int

func (n number) main() {
	println(1)
}

func init() {
	println("a")
}
