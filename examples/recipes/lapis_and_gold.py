with surface("sky") as sky, \
     surface("stars") as stars:
    sky.matt(to_linear(texture("sky.png")))
    stars.metal(
        to_linear(texture("stars.png")),
        # inside brackets neither this comment
# nor this one is a line of its own
        rough=0.2,
    )
