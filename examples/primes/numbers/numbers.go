// Package numbers tells which numbers are prime.
package numbers

// IsPrime tells whether n is a prime number.
func IsPrime(n int) bool {
	if n < 2 {
		return false
	}
	for d := 2; d <= n/d; d++ {
		if n%d == 0 {
			return false
		}
	}
	return true
}

// Greatest is the greatest prime number up to n, or 0 where there is none.
func Greatest(n int) int {
	for n > 1 && !IsPrime(n) {
		n--
	}
	if n < 2 {
		return 0
	}
	return n
}
