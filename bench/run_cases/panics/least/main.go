package main

func main() {
	panic(-9223372036854775807 - 1)
}
