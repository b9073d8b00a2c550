package broken

func g() { none() }
