package alone

func init() {
	println(-1)
}
