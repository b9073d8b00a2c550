package clean

func Twice(n int) int { return n + n }
