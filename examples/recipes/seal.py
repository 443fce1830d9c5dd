with surface("seal"):
    wax = to_linear(texture("seal.png"))

# lit from the left
    matt(wax, light=(-1.0, .5, 2.j.real))
