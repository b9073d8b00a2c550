package a

func main() { println("a") }
