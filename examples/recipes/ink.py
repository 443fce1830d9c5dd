def ink(name, age=600):
    """Iron gall ink browns with age."""
    black = to_linear(texture(f"{name}.png"))
    brown = (0.11, 0.06, 0.03)
    return blend(black, brown, min(age / 1_000, 1.0))

for name in ("rubric", "text"):
    with surface(name):
        matt(ink(name))
