package text

func init() {
	println("a")
}
