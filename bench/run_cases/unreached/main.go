package main

type pair struct {
	first  int
	second int
}

type number int

func (n number) text() string {
	return "a"
}

func first(p pair) int {
	return p.first
}

func tell() {
	println("a", number(1).text(), first(pair{1, 2}))
}

func main() {
	println(1)
}
