package b

func init() {
	println(5)
}
