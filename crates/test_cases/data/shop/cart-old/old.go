package old

func text() string { return "é" + none }
