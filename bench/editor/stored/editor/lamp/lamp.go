// Package lamp has lamps.
package lamp

// Lamp is a lamp of so many watts.
type Lamp struct {
	Watts int
	name  string
}

// Make makes a lamp.
func Make(watts int) *Lamp {
	return &Lamp{Watts: watts, name: "größe 😀"}
}

// Power is what a lamp takes in so many hours.
func (l *Lamp) Power(hours int) int {
	return l.Watts * hours
}
