package main

import (
	"ex.com/shop/cart"
	"ex.com/shop/price"
)

func main() {
	c := cart.New()
	c.Add("tea", 3)
	println(c.Total())
}
