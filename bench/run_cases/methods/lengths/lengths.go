package lengths

type Metres int

func Value() int {
	return 88
}

func (m Metres) Value() int {
	return int(m) * 3
}
