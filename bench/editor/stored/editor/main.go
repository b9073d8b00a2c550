package main

import "example.com/editor/lamp"

// total is what all lamps took.
var total int

// shine lets a lamp shine for so many hours.
func shine(l *lamp.Lamp, hours int) {
	total = total + l.Power(hours)
}

func main() {
	l := lamp.Make(40)
	shine(l, 2)
	println("größe 😀", total)
}
