package main

func main() {
	println(2)
}
