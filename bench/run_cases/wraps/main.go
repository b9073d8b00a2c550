package main

func main() {
	greatest := 9223372036854775807
	least := -9223372036854775807 - 1
	one := 1
	println(greatest + one)
	println(least - one)
	println(greatest * 2)
	println(greatest * greatest)
	println(least * least)
	println(least * -1)
	println(-least)
	println(-greatest)
	println(+least)
	println(least + least)
	println(greatest - least)
	println(greatest+one < greatest)
	greatest++
	println(greatest == least)
	least--
	println(least)
	least += 2
	println(least)
	least *= 2
	println(least)
	least -= 3
	println(least)
	word := 4294967296 * one
	println(word * word)
	root := 3037000500 * one
	println(root * root)
}
