package main

type metres int

type yards int

type steps metres

type flag bool

type answer flag

func main() {
	m := metres(3)
	y := yards(m)
	s := steps(y) + 4
	println(m, y, s, int(s)-1)
	println(metres(yards(int(s))) * m)
	f := flag(m == 3)
	a := answer(f)
	println(f, a, bool(a), !a)
	const c metres = 10
	println(int(c)/3, yards(c)%3, metres(-7)/2)
	least := -9223372036854775807 - 1
	println(-metres(least), metres(least)/(2-m), steps(least)%steps(2-m))
}
