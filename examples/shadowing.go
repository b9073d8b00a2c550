package a

func f() int { x := 1; { x := x; return x } }
