package z

const Seven = 7

func init() {
	println(6)
}
