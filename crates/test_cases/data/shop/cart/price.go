package cart

func Largest() int { return 9 }

func Largest() int { return 10 }
