package main

func divide(x int, y int) {
	println(x, y, x/y, x%y)
}

func main() {
	divide(7, 2)
	divide(-7, 2)
	divide(7, -2)
	divide(-7, -2)
	divide(6, -3)
	divide(-1, 2)
	divide(1, -2)
	least := -9223372036854775807 - 1
	divide(least, -1)
	divide(least, 1)
	divide(least, 2)
	divide(least, 3)
	divide(least, least)
	divide(-1, least)
	divide(9223372036854775807, -1)
	x := -7
	x /= 2
	println(x)
	x %= 2
	println(x)
	println(-7/2, -7%2, 7/-2, 7%-2)
	divide(5, 0)
}
