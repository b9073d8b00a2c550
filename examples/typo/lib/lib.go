package lib

// A Rect is a rectangle.
type Rect struct{ Width, Height int }

// Make makes a rectangle.
func Make(width, height int) Rect { return Rect{width, height} }

// Area is width times height.
func (r Rect) Area() int { return r.Width * r.Height }
