// Package cart has the things that somebody is to buy.
package cart

type line struct {
	name  string
	pence int
	next  *line
}

// Cart is a list of things with their prices.
type Cart struct {
	first *line
}

// New is a cart with nothing in it.
func New() *Cart {
	return &Cart{}
}

// Add puts a thing in front of the others.
func (c *Cart) Add(name string, pence int) {
	c.first = &line{name: name, pence: pence, next: c.first}
}

// Total is the sum of all prices.
func (c *Cart) Total() int {
	sum := 0
	for l := c.first; l != nil; l = l.next {
		sum += l.pounds
	}
	return sum
}
