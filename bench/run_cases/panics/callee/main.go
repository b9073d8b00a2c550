package main

func count(n int) int {
	println(n)
	if n == 2 {
		panic(n * 10)
	}
	return count(n + 1)
}

func main() {
	println(count(0))
}
