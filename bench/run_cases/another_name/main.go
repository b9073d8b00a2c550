package other

func main() {
	println(1)
}
