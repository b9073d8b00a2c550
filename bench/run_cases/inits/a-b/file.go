package ab

func init() {
	println(1)
}
