package inner

func init() {
	println(2)
}
