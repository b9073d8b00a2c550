// Package main is the shop.
package main

import (
	"example.com/shop/cart"
	"example.com/shop/clean"
)

func main() {
	println(cart.Largest(), clean.Twice(2))
}
