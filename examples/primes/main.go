package main

import "primes/numbers"

// The last number that is tried.
const last = 100

func main() {
	count := 0
	for n := 2; n <= last; n++ {
		if numbers.IsPrime(n) {
			println(n)
			count++
		}
	}
	println(count, numbers.Greatest(last) == 97)
}
