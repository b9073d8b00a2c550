package item

type Item struct {
	name  string
	price int
}

func (i Item) Price() int { return i.price }

func (i Item) Half() int { return i.price / "2" }
