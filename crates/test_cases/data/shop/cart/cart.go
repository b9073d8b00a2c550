package cart

import (
	"example.com/shop/cart/item"
	"example.com/shop/clean"
)

// A Cart has a first item, and some more.
type Cart struct {
	first item.Item
	count int
}

func (c *Cart) Total() int {
	return c.first.Price() * c.cuont
}

func (c *Cart) Name() string {
	return c.first.name
}

func (c *Cart) Count() int {
	return c.count + more + most
}
