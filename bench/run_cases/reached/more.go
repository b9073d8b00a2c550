package main

func unused() {
	println("a")
}

func said() {
	println("b")
}

func later() {
	said()
}
