package far

func init() {
	println("a")
}

func main() {
	println("b")
}
