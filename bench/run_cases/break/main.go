package main

func main() {
	n := 0
	for i := 0; ; i++ {
		for {
			n++
			if n%3 == 0 {
				break
			}
		}
		println(i, n)
		if i == 2 {
			break
		}
	}
	println(n)
}
