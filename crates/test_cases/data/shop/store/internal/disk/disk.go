package disk

func Size() int { return 4 }
