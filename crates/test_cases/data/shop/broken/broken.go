package broken

func f() string { return "no end }
