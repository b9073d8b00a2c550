package alone

func init() {
	println("a")
}
