type Colour = tuple[float, float, float]
type Layer[T] = list[T]

type = "gold"                # a name here, not a keyword

def mix(a: Colour, b: Colour, t: float = 0.5) -> Colour:
    return tuple(x * (1 - t) + y * t for x, y in zip(a, b))
