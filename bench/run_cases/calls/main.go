package main

func noted(n int) int {
	println(n)
	return n
}

func difference(a int, b int, c int) int {
	return a - b*c
}

func fibonacci(n int) int {
	if n < 2 {
		return n
	}
	return fibonacci(n-1) + fibonacci(n-2)
}

func even(n int) bool {
	if n == 0 {
		return true
	}
	return odd(n - 1)
}

func odd(n int) bool {
	if n == 0 {
		return false
	}
	return even(n - 1)
}

func unnamed(int, bool) int {
	return 3
}

func blank(_ int, b int, _ int) int {
	return b
}

func grouped(a, b int) (int) {
	return a*10 + b
}

func depth(n int) int {
	if n == 0 {
		return 0
	}
	return 1 + depth(n-1)
}

func main() {
	println(difference(noted(1), noted(2), noted(3)))
	println(fibonacci(20))
	println(even(10), odd(10))
	println(unnamed(1, true), blank(1, 2, 3), grouped(4, 5))
	println(noted(4) + noted(5)*noted(6))
	println()
	println(depth(20000))
	println(noted(7), noted(8))
}
