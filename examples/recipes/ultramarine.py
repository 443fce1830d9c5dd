with surface("blue ground"):
    blue = to_linear(texture("ground.png"))
    if blue.mean() < 0.05:      # underexposed plates
        blue *= 1.5
    matt(blue, grain=0x7F / 255)
