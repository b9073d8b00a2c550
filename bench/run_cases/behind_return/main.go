package main

func said() {
	println("a")
}

func main() {
	println(1)
	return
	said()
}
