package a

import "ex.com/m/z"

func init() {
	println(z.Seven)
}

func Value() int {
	return 7
}
