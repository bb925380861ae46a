package shapes

const Sides = 4

type Shape interface {
	Area() float64
	Name() string
}

type Square struct {
	Side float64
}

func (s Square) Area() float64 { return s.Side * s.Side }

type List[E any] struct {
	Item E
	Next *List[E]
}
