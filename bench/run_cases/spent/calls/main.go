package main

func count(n int) {
	println(n)
	count(n + 1)
}

func main() {
	count(0)
}
