package main

type flag bool

func main() {
	f := flag(true)
	println(f)
	panic(!f)
}
