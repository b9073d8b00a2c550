package main

func init() {
	println(9)
}
