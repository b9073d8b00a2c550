package geo

type Point struct{ X, Y int }

type Shape interface {
	Area() int
}

type Square struct{ side int }

func (s *Square) Area() int { return s.side * s.side }

func Line(from, to Point) int { return from.X - to.X }
