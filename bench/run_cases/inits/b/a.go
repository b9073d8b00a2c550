package b

func init() {
	println(3)
}

func init() {
	println(4)
}
