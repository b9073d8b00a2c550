package main

func init() {
	println(8)
}
