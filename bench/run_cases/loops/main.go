package main

// The first number from n on that d divides.
func multiple(n int, d int) int {
	for {
		if n%d == 0 {
			return n
		}
		n++
	}
}

// How many odd numbers there are up to n.
func odds(n int) int {
	count := 0
	i := 0
	for i < n {
		i++
		if i%2 == 0 {
			continue
		}
		count++
	}
	return count
}

func sign(n int) int {
	if n < 0 {
		return -1
	} else if n == 0 {
		return 0
	} else {
		return 1
	}
}

func main() {
	println(multiple(10, 7), multiple(14, 7))
	println(odds(7))
	println(sign(-5), sign(0), sign(5))
	for i := 0; i < 3; i++ {
		var sum int
		for j := 0; j <= i; j++ {
			if j == 1 {
				continue
			} else {
				sum += j + 1
			}
		}
		println(i, sum)
	}
	i := 5
	for ; i > 3; {
		i--
	}
	println(i)
	for false {
		println(-1)
	}
	for i := 0; i < 10; i++ {
		if i > 2 {
			if i == 4 {
				break
			} else {
				continue
			}
		}
		println(i)
	}
}
