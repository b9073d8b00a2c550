package main

import "ex.com/m/lengths"

type Metres int

type Flag bool

func (m Metres) Value() int {
	return int(m) * 2
}

func (f Flag) Value() int {
	if f {
		return 1
	}
	return 0
}

func (m Metres) Plus(other Metres) Metres {
	return m + other
}

func Value() int {
	return 77
}

func noted(n int) Metres {
	println(n)
	return Metres(n)
}

func main() {
	m := Metres(5)
	f := Flag(true)
	l := lengths.Metres(5)
	println(m.Value(), f.Value(), l.Value(), Value(), lengths.Value())
	println(Flag(false).Value(), Metres(4).Value(), lengths.Metres(4).Value())
	println(m.Plus(2).Plus(3).Value())
	println((m).Value(), (m.Plus)(m))
	println(noted(1).Plus(noted(2)))
}
