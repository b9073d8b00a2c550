package mixed

func f() { none() }
