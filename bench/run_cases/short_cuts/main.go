package main

func said(answer bool) bool {
	println(answer)
	return answer
}

func main() {
	zero := 0
	println(zero != 0 && 1/zero > 0)
	println(zero == 0 || 1/zero > 0)
	println(said(false) && said(true))
	println(said(true) && said(false))
	println(said(true) || said(false))
	println(said(false) || said(true))
	println(said(false) && said(true) || said(true))
	println(!said(true) || said(false) && said(true))
	if zero == 0 && said(true) {
		println(1)
	}
}
