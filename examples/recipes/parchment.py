"""Bare parchment, hair side: warm, matt, a little uneven."""
with surface("parchment"):
    base = to_linear(texture("f12r_albedo.png"))
    bumps = texture("f12r_height.png", scale=0.4)
    matt(base, height=bumps)
