package a

const size = 10

const size = 20

func f() int {
	x := size + missing
	y := int
	x := y
	{
		x := x * _
		return x
	}
}

func g() int {
	return f
}
