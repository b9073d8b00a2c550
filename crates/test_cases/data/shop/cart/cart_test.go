package cart

func f() { none() }
