package text

func Say() {
	println("c")
}
