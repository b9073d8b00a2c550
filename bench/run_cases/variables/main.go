package main

func main() {
	var n int
	var t bool
	var m int = 4
	var (
		a = 1
		b = a + 1
	)
	println(n, t, m, a, b)
	{
		n := 5
		n++
		println(n)
	}
	println(n)
	if n := m; n > 3 {
		println(n)
	} else {
		println(-n)
	}
	if n := m; n > 5 {
		println(n)
	} else if t {
		println(t)
	} else {
		println(-n)
	}
	_ = m / a
	m = m - 1
	m *= m
	println(m)
	t = !t
	println(t, t == false, t != false)
	for i := 0; i < 2; i++ {
		var sum int
		sum += i + 1
		println(sum)
	}
}
